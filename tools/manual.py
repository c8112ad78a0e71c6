#!/usr/bin/env python3
"""Writes the manual page man/crushedit.1 from the help in crates/crush_options/src/command_line.rt and verbs.rt.

    python3 tools/manual.py [--check]

After the name and the synopsis, the page has the text BEGIN, which contains the help's examples of verbs. Then the
page has the help. Paragraphs, lists with two columns and samples of the help become paragraphs, lists and samples of
the page. The help of each verb becomes a section of its own. At the end, the page has the text END.

The script needs only Python 3. With --check the script writes nothing, and the status is 1 if the page isn't what the
script would write.
"""
import pathlib
import re
import sys

TOP = pathlib.Path(__file__).resolve().parent.parent
SOURCE = TOP / "crates/crush_options/src/command_line.rt"
VERBS = TOP / "crates/crush_options/src/verbs.rt"
PAGE = TOP / "man/crushedit.1"
# The one option that may be given several times.
SCRIPT = "-s, --script SCRIPT"
# The beginning of the description: how an operator begins. After it, the page describes the command line without a
# verb.
BEGIN = r""".PP
.B crushedit
edits the text of a CRUSH map, and never contacts a cluster.
Use one of the verbs, which have safe defaults:
{examples}.PP
The section VERBS describes the verbs.
A command line without a verb is for programs, and for tasks that no verb does.
"""
# The end of the page: what else an operator must know who doesn't have the other pages at hand.
END = r""".SH "FROM A CLUSTER AND BACK"
.nf
ceph osd getcrushmap \-o map.bin
crushtool \-d map.bin \-o map.txt
echo 'reweight osd.2 1.0' > alice
crushedit apply \-\-dry\-run map.txt alice
crushedit apply \-o new.txt map.txt alice
crushtool \-c new.txt \-o raw.bin
crushtool \-i raw.bin \-\-reweight \-o new.bin
.fi
.PP
The last step is
.BR "ceph osd setcrushmap \-i new.bin " \fIVERSION\fR,
where VERSION is the number that
.B getcrushmap
has printed.
Data moves only after this step.
.BR crushedit\-recipe (1)
does all steps except for the last one, and checks each of them.
.SH WEIGHTS
Weights are in TiB, as is usual with Ceph.
.B crushedit
rounds a weight to the nearest 65536th of 1.0, and Ceph rounds a weight down.
.BR 4T ", " .5 " and " \-1
are not valid weights.
.PP
The line
.B crushedit: adjusted \fIN\fR
says that the text gave N buckets a weight that isn't the sum of the weights of their devices.
.B crushedit
uses the sum.
The usual reason is that
.BR crushtool (8)
of Ceph 18 prints the weight of a bucket as a float of 32 bits, which isn't exact above 256 TiB.
.SH CAVEATS
.B crushedit
never contacts a cluster.
Keep
.BR map.bin ,
the map that you have taken from the cluster: with this map you can undo the change.
.PP
An empty text is a valid map, and a text whose end was cut off may be a valid smaller map.
The verbs
.BR apply ", " diff " and " plan
refuse a map that doesn't end with the line
.BR "# end crush map" .
A run without a verb accepts such a map.
For example, the command
.B "crushedit map.txt > map.txt"
prints an empty map and ends with status 0, because the shell empties the file first.
With
.B \-o map.txt
in place of
.BR "> map.txt" ,
the file keeps its old bytes until the run has succeeded.
.PP
A script whose end was cut off may still be valid.
So look whether
.B crushedit apply \-\-dry\-run
prints a reply for the last command of the script.
.PP
If a location names buckets that aren't in the map, the command creates these buckets.
So a command with a mistyped name can create a bucket.
The verb
.BR apply ,
and a run with
.BR \-\-no\-make ,
then print no map.
.PP
A new device has no class.
A rule that chooses only devices of one class doesn't find the device until
.B set\-device\-class
gives the device this class.
.SH "SEE ALSO"
.BR crushedit\-recipe (1),
.BR crushtool (8),
.BR ceph (8)
"""


def constant(source, name):
    """Returns the text of a constant of a source."""
    text = re.search(rf'(?s)const {name}: &str =\s+"(.*?)(?<!\\)";', source).group(1)
    return text.removeprefix("\\\n")


def plain(text):
    """Returns a text as the manual page needs it.

    Backslashes and hyphens are escaped, and so is a `.` or a `'` at the beginning of a line, which would begin a
    command of troff, the language of manual pages.
    """
    text = text.replace("\\", "\\e").replace("-", "\\-")
    return re.sub(r"(?m)^(?=[.'])", r"\\&", text)


def marked(text):
    """Returns a text that a user types, in bold. Words in capital letters, which stand for other words, are italic."""
    return re.sub(r"\b(?:[A-Z]{3,}|N)\b", r"\\fI\g<0>\\fB", f"\\fB{plain(text)}\\fR").replace("\\fB\\fR", "\\fR")


def prose(text):
    """Returns a paragraph. In the given text, what a user types is between backquotes."""
    parts = " ".join(text.split()).split("`")
    return "".join(marked(part) if at % 2 else plain(part) for at, part in enumerate(parts)) + "\n"


def item(head, text):
    """Returns an entry of a list: what a user types, and the text that explains it."""
    return f".TP\n{marked(head)}\n{prose(text)}"


def block(text):
    """Returns a list, a sample or a paragraph of the help, as the manual page writes it.

    If the text begins with a heading, the heading becomes the title of a section.
    """
    if text.startswith("For example:\n"):
        return f".PP\nFor example:\n{block(text.partition(chr(10))[2])}"
    heading = re.match(r"([A-Z][A-Za-z ]*)(?:, ([^\n]*))?:\n(?=.)", text)
    if heading:
        said = f"They are {heading.group(2)}.\n" if heading.group(2) else ""
        return f'.SH "{heading.group(1).upper()}"\n{prose(said) if said else ""}{block(text[heading.end() :])}'
    rows = [re.match(r" {4}(\S.*?) {2,}(\S.*)$", line) for line in text.splitlines()]
    if all(rows):
        return "".join(item(row.group(1), row.group(2)) for row in rows)
    if text.startswith("    "):
        return f".PP\n.RS\n.nf\n{plain(re.sub(r'(?m)^ {4}', '', text))}\n.fi\n.RE\n"
    return f".PP\n{prose(text)}"


def texts_of(source):
    """Returns the texts of a source, by the names of the variables or constants that have these texts."""
    return dict(re.findall(r'(?:let|const) (\w+)(?:: &str)? =\s+"([^"]+)";', source))


def short_options(source):
    """Returns the options that also have a letter, such as `-s, --script SCRIPT`, with their texts.

    The keys are the names of the functions of the source that create the options.
    """
    made = (
        r'fn (\w+)<\'a>\(alloc: Global\)[^{]*(?:\{[^}]*\}\s*ensures[^{]*\{[^}]*\}\s*)\{\s*Arg::new\(alloc, "([a-z-]+)"\)\s*'
        r'\.short\(\'(\w)\'\).*?\.value_name\("(\w+)"\).*?\.help\("([^"]+)"\)'
    )
    return {
        function: (f"-{letter}, --{name} {value}", text)
        for function, name, letter, value, text in re.findall(made, source, re.S)
    }


def words_in(body, texts, short):
    """Yields the options that a part of a source adds to a command, in the order of the source, with their texts."""
    added = r'\b(?:flag|option)\(\s*alloc,\s*"([a-z-]+)",\s*(?:"([A-Z]+)",\s*)?(\w+),?\s*\)|\.arg\((\w+)\(alloc\)\)'
    for name, value, text, function in re.findall(added, body):
        if name:
            yield f"--{name} {value}".rstrip(), texts[text]
        elif function in short:
            yield short[function]


def words_of(source):
    """Returns the options of a command line without a verb, in the order of the help, each with its text."""
    return [
        *words_in(source, texts_of(source), short_options(source)),
        ("-h, --help", "Print help, and run nothing"),
        ("-V, --version", "Print version, and run nothing"),
    ]


class Verb:
    """A verb: its name, its options and arguments with their texts, and its help."""

    def __init__(self, name, source, plain):
        bodies = "".join(re.findall(rf"(?s)fn {name}(?:_flags|_shown)?<.*?\n\}}\n", source))
        self.name = name
        self.about, self.more = (constant(source, f"{name.upper()}_{what}") for what in ("ABOUT", "MORE"))
        self.options = [*words_in(bodies, texts_of(source), short_options(plain)), ("-h, --help", "Print help, and run nothing")]
        self.files = re.findall(r'needed\(\s*alloc,\s*"([A-Z]+)",\s*"([^"]+)"', bodies)
        script = re.search(r'Arg::new\(alloc, "([A-Z]+)"\).*?\.help\("([^"]+)"\)', source, re.S)
        self.more_files = script.groups() if "more_scripts(alloc)" in bodies else None

    def synopsis(self):
        """Returns the lines of the synopsis that show the verb with its arguments."""
        files = [f".I {name}\n" for name, _ in self.files]
        if self.more_files:
            files.append(f".RI [ {self.more_files[0]} ]..\n")
        return f".B crushedit {self.name}\n.RI [ OPTION ]..\n{''.join(files)}"

    def section(self):
        """Returns the section of the page that describes the verb."""
        files = [*self.files, *([self.more_files] if self.more_files else [])]
        return (
            f'.SS "crushedit {self.name}"\n{plain(self.about)}.\n'
            f"{''.join(block(re.sub('^Examples?:', 'For example:', text)) for text in self.more.strip(chr(10)).split(chr(10) * 2))}"
            f"{''.join(item(head, text + '.') for head, text in [*files, *self.options])}"
        )


def verbs():
    """Returns the verbs, in the order in which the source lists them."""
    source, plain = VERBS.read_text(), SOURCE.read_text()
    return [Verb(name, source, plain) for name in re.findall(r'word == "([a-z]+)"', source)]


def page():
    """Returns the text of the manual page."""
    source = SOURCE.read_text()
    version = constant(source, "VERSION")
    about, verb_list, verb_text, examples, _ = constant(source, "ABOUT").split("\n\n")
    file = re.search(r'Arg::new\(alloc, "([A-Z]+)"\).*?\.help\("([^"]+)"\)', source, re.S)
    options = words_of(source)
    synopsis = ""
    for head, _ in options[:-2]:
        word = f"{head.split(',')[0]} {head.split()[-1]}" if "," in head else head
        synopsis += f'.RB [ "{marked(word)}" ]{".." if head == SCRIPT else ""}\n'
    with_verbs = "".join(f"{verb.synopsis()}.br\n" for verb in verbs())
    begin = BEGIN.format(examples=block(examples.removeprefix("Examples:\n")))
    job, rest = constant(source, "MORE").strip("\n").split("\n\nCommands")
    return (
        f'.TH CRUSHEDIT 1 "" "crushedit {version.split()[0]}" "User Commands"\n'
        f".SH NAME\ncrushedit \\- {plain(about[0].lower() + about[1:])}\n"
        f".SH SYNOPSIS\n{with_verbs}.B crushedit\n{synopsis}.RI [ {file.group(1)} ]\n"
        f".SH DESCRIPTION\n{begin}{''.join(block(text) for text in job.split(chr(10) * 2))}"
        f"{block(verb_list)}{block(verb_text)}{''.join(verb.section() for verb in verbs())}"
        f".SH OPTIONS\nA command line without a verb has these options:\n{item(file.group(1), file.group(2) + '.')}"
        f"{''.join(item(head, text + '.') for head, text in options)}"
        f"{''.join(block(text) for text in ('Commands' + rest).split(chr(10) * 2))}{END}"
    )


def main():
    if sys.argv[1:] == ["--check"]:
        sys.exit(0 if PAGE.read_text() == page() else "man/crushedit.1 is older than the help: run tools/manual.py")
    PAGE.write_text(page())


if __name__ == "__main__":
    main()
