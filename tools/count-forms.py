#!/usr/bin/env python3
"""Counts the older forms that docs/DESIGN-PASS.md speaks of, in the .rt files below crates/*/src of a commit.

    tools/count-forms.py COMMIT        one line a form
    tools/count-forms.py COMMIT FORM   the places of one form, file:line: text
"""
import re
import subprocess
import sys


def git(*words):
    return subprocess.run(["git", *words], capture_output=True, text=True, check=True).stdout


def sources(commit):
    """(path, lines) of each .rt file of src/ in the commit, tests aside."""
    for path in git("ls-tree", "-r", "--name-only", commit, "crates").splitlines():
        if re.match(r"crates/\w+/src/.*\.rt$", path) and not path.endswith("tests.rt"):
            yield path, git("show", f"{commit}:{path}").splitlines()


def code(line):
    """Whether a line is code: no comment and no ghost line."""
    return not re.match(r"\s*(//|ghost |requires|ensures)", line)


def clause(line):
    return re.match(r"\s*(requires|ensures|ghost \w+: )", line) or re.match(r"\s*×", line)


# form: (point, what it is, test of one line)
ANSWERS = (
    r"-> (&?\w+::)*(Report|Reading|Verdict|Judged(<'_>)?|Searched|Grids|Level|Levels|Found|Looked|Display|Shown|Loaded|Call)( |$)"
)
FORMS = {
    "success-tests": ("1", "a number tested for success", lambda l: code(l) and re.search(r"\.number\b(\(\))? (!=|==) 0", l)),
    "answers": ("1", "a function that answers a report, or a value with a report or number beside it", lambda l: code(l) and re.search(ANSWERS, l)),
    "sentinels": ("1", "a number that says none or no", lambda l: code(l) and re.search(r"\bBROKEN\b|next == 0|e >= entries|e == entries", l)),
    "kinds": ("1", "a number that says a kind", lambda l: code(l) and re.search(r"mark: u8|mark == b'|START_FLOW_KIND|GOALS_KIND", l)),
    "within": ("2", "a function that stands with a test and without", lambda l: code(l) and re.search(r"fn \w*_within\(", l)),
    "while": ("3", "a loop with while", lambda l: code(l) and re.search(r"^\s*('\w+: )?while ", l)),
    "steps": ("3", "an index stepped by hand", lambda l: code(l) and re.search(r"^\s*\w+ [+-]= 1;", l)),
    "helpers": ("4", "a conversion, the smaller or the larger by a function of our own", lambda l: code(l) and re.search(r"numbers::(wide|wide_pair|wide_quad|smaller|larger)\(", l)),
    "joins": ("4", "bytes joined or printed by a function of our own", lambda l: code(l) and re.search(r"\b(joined|paired|coupled)\(|case_output::(text|field|small|medium|front)\(", l)),
    "starts": ("5", "a clause that says where records begin", lambda l: clause(l) and re.search(r"(start|other|behind) ≡ (turns|signals|modes|entries|arrivals)_start", l) and not re.match(r"\s*ghost", l)),
    "readable": ("5", "a clause that says that bytes are readable, or laid out so", lambda l: clause(l) and re.search(r"\b(Readable|LaidOut|NetworkAt|PlacesOf) s\.now", l) and not re.match(r"\s*ghost", l)),
    "links": ("5", "a clause that says how many links there are", lambda l: clause(l) and re.search(r"links ≡ links_of", l) and not re.match(r"\s*ghost", l)),
    "tables": ("5", "a clause on a table of judging, or on a task", lambda l: clause(l) and re.search(r"\b(TablesOf|CountsOf|CapsOf|EdgesOf|ArrivalsOf|DigitsOf|RanksOf|FirstTurns|IsTask|CountsAre|Placed|WhereOf|IsIndex) ", l) and re.match(r"\s*requires", l)),
    "beside": ("6", "a list with its count beside it", lambda l: code(l) and re.search(r"runs: &(mut )?\[u16\],$|queues: &\[u32\], n: usize|bytes: &\[u8\], n: usize|fn (front|behind|front_numbers|put)\(", l)),
    "marks": ("7", "a switch on a mark that says which step to run", lambda l: code(l) and re.search(r"match mark \{", l)),
}


def parameters(commit):
    """Functions with seven parameters and more."""
    for path, lines in sources(commit):
        text = "\n".join(lines)
        for m in re.finditer(r"\bfn (\w+)(?:<[^>]*>)?\(([^)]*)\)", text):
            names = [p for p in m.group(2).split(",") if p.strip()]
            if len(names) >= 7:
                yield f"{path}:{text[:m.start()].count(chr(10)) + 1}: {m.group(1)} {len(names)}"


def main():
    commit = sys.argv[1]
    wanted = sys.argv[2] if len(sys.argv) > 2 else None
    found = {name: [] for name in FORMS}
    for path, lines in sources(commit):
        for number, line in enumerate(lines, 1):
            for name, (_, _, test) in FORMS.items():
                if test(line):
                    found[name].append(f"{path}:{number}: {line.strip()}")
    found["parameters"] = list(parameters(commit))
    if wanted:
        print("\n".join(found[wanted]))
        return
    for name, places in found.items():
        point, what = FORMS[name][:2] if name in FORMS else ("5", "a function with seven parameters and more")
        print(f"{point} {name:14} {len(places):4}  {what}")
    answers = [p for p in git("ls-tree", "-r", "--name-only", commit, "crates").splitlines() if p.endswith("/Answers.antt")]
    print(f"8 answer-files   {len(answers):4}  files of answers; lines in them {sum(git('show', f'{commit}:{p}').count(chr(10)) for p in answers)}")


main()
