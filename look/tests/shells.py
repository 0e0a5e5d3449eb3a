"""What three shells are told may come behind `hazard-look`: each job, each option of a job, and the files that a job reads."""
import os
import re
import shutil
import subprocess

# The file that comes first behind a job, if that is no netlist.
FIRST = {"from-yosys": "d.json", "from-verilog": "t.v"}
BASH = 'source "$0"; COMP_WORDS=("$@"); COMP_CWORD=$(($# - 1)); _hazard_look; echo "${COMPREPLY[@]}"'
FISH = "source $argv[1]; complete -C $argv[2]"
# zsh lists what may come in a terminal alone, so it gets one; the keys are those of a person, and ^D asks
ZSH = r"""
zmodload zsh/zpty && zmodload zsh/datetime || exit 1
heard() { # everything up to a pattern, or what there is after some seconds
  local part; typeset -g all=; local -F until=$((EPOCHREALTIME + $2))
  while ((EPOCHREALTIME < until)); do
    if zpty -r -t z part; then all+=$part; [[ $all == *${~1}* ]] && return; else sleep 0.05; fi
  done
}
zpty z zsh -f -i
zpty -w z "PS1=; fpath=($1 \$fpath); autoload -U compinit; compinit -u -D; setopt nolistbeep; LISTMAX=0; echo BE''GIN"
heard BEGIN 300
zpty -w -n z "hazard-look $2"$'\x04'
heard "hazard-look $2*hazard-look" 300
print -r -- $all
"""


def rows(folder, root, run, write):
    """Rows of name, found, wanted."""
    place = os.path.join(root, "completions")
    for name in ("n.bench", "m.BLIF", "s.txt", "d.json", "t.v"):
        write(folder, name, "")
    jobs = re.search(r"choose from (.*)\)", run(["no-job"], folder)[2])[1].replace("'", "").split(", ")
    options = {job: set(re.findall(r"(?<![`\w])--[a-z]+", run([job, "--help"], folder)[1])) for job in jobs}
    yield from _bash(folder, os.path.join(place, "hazard-look.bash"), jobs, options)
    for shell, part in (("fish", _fish), ("zsh", _zsh)):
        if shutil.which(shell):
            yield from part(folder, place, jobs, options)
        else:
            print(f"skipped: completions: no {shell} is installed")


def _output(words, folder):
    done = subprocess.run(words, cwd=folder, env=dict(os.environ, HOME=folder, TERM="dumb"), stdin=subprocess.DEVNULL, stdout=subprocess.PIPE,
                          stderr=subprocess.DEVNULL, timeout=700, check=False)
    return done.stdout.decode(errors="replace")


def _bash(folder, script, jobs, options):
    def told(*asked):
        return sorted(_output(["bash", "-c", BASH, script, "hazard-look", *asked], folder).split())
    yield "bash: jobs", told(""), sorted(jobs + ["--help", "--version"])
    for job in jobs:
        yield f"bash: options of {job}", told(job, "-"), sorted(options[job])
        yield f"bash: first file of {job}", told(job, ""), [FIRST[job]] if job in FIRST else ["m.BLIF", "n.bench"]
    yield "bash: second file", told("why", "n.bench", "s"), ["s.txt"]
    yield "bash: second file after an option", told("summary", "--only", "z", "n.bench", "s"), ["s.txt"]
    yield "bash: nothing after the netlist of a start", told("start", "n.bench", ""), []
    yield "bash: where a run is kept", told("why", "n.bench", "s.txt", "z", "--save", "s"), ["s.txt"]


def _fish(folder, place, jobs, options):
    def told(text):
        lines = _output(["fish", "--no-config", "-c", FISH, os.path.join(place, "hazard-look.fish"), "hazard-look " + text], folder).splitlines()
        return [line.split("\t")[0] for line in lines]
    yield "fish: jobs", sorted(told("")), sorted(jobs)
    yield "fish: words in place of a job", set(told("--")), {"--help", "--version"}
    for job in jobs:
        yield f"fish: options of {job}", set(told(f"{job} --")), options[job]
        yield f"fish: first file of {job}", told(f"{job} ")[0], FIRST.get(job, "n.bench")
    yield "fish: second file", told("why n.bench s"), ["s.txt"]
    yield "fish: where a run is kept", told("why n.bench s.txt z --save s"), ["s.txt"]


def _zsh(folder, place, jobs, options):
    def told(text):
        listed = _output(["zsh", "-f", "-c", ZSH, "zsh", place, text], folder)
        listed = re.sub(r"\x1b\[[0-9;?]*[A-Za-z]", "", listed).replace("\r", "\n")
        return set(re.split(r"\s+", listed.replace("hazard-look", " ")))
    yield "zsh: jobs", sorted(job for job in jobs if job not in told("")), []
    for job in ("summary", "expect", "from-yosys", "from-verilog"):
        yield f"zsh: options of {job}", {word for word in told(f"{job} -") if re.match(r"--[a-z]", word)}, options[job]
    yield "zsh: first file of a job", {"n.bench", "m.BLIF", "s.txt"} & told("page "), {"n.bench", "m.BLIF"}
    yield "zsh: a design", {"n.bench", "d.json"} & told("from-yosys "), {"d.json"}
