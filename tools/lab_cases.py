"""What tests/lab and tests/lab_run share: a copy of what lab needs, a run of lab and its judgement, and the cases that every command takes whose text comes
in on standard input: reading and writing that fails, links, folders, and programs that are missing."""
import concurrent.futures, csv, importlib.machinery, importlib.util, io, json, os, pathlib, pty, re, resource, select, shlex, shutil, signal, subprocess, sys, tempfile

sys.dont_write_bytecode = True
# This python3 itself comes first, and not a script that looks for it: each refusal starts one.
os.environ["PATH"] = f"{os.path.dirname(sys.executable)}:{os.environ['PATH']}"
HEAD = b"number,slot,value,fate,when,by\r\n"
TRACE = b"slot,value\r\n1,1\r\n1,9\r\n2,9\r\n2,9\r\n"
RECORD = HEAD + b"1,1,1,4,1,2\r\n2,1,9,1,1,0\r\n3,2,9,1,2,0\r\n4,2,9,1,3,0\r\n"
PACKETS = [(1, 1), (1, 9), (2, 9), (2, 9)]
MARK = b"\xef\xbb\xbf"
wrong, checked = [], []
pool, waiting = concurrent.futures.ThreadPoolExecutor(3), []


def the_root():
    """The folder whose lab is tested: the script's first argument, else the repository."""
    return pathlib.Path(sys.argv[1] if len(sys.argv) > 1 else pathlib.Path(__file__).parent.parent).resolve()


def tool(root, name):
    """A program of tools/ as a module."""
    loader = importlib.machinery.SourceFileLoader(name, str(root / "tools" / name))
    module = importlib.util.module_from_spec(importlib.util.spec_from_loader(name, loader))
    loader.exec_module(module)
    return module


def refusal(number, place):
    return b"refusal,place\r\n%d,%d\r\n" % (number, place)


def judge(title, ran, status, out=None, says=(), silent=False):
    """The run's status, its standard output where that is given, and words of its standard error, in any order; silent: no word at all."""
    checked.append(1)
    errors = (ran.stderr or b"").decode("utf-8", "replace")
    missing = [word for word in says if word not in errors]
    if ran.returncode != status or (out is not None and ran.stdout != out) or missing or (silent and errors) or "Traceback" in errors:
        wrong.append(f"{title}: status {ran.returncode} where {status} is right, {missing} not said\n  wrote {ran.stdout!r}\n  said {errors!r}")


class Tree:
    """A copy of what lab needs, with programs that are newer than its two crates."""

    def __init__(self, root, work):
        self.work = work
        self.root = work / "a tree"
        (self.root / "target/bin").mkdir(parents=True)
        for crate in ("bench", "lab"):
            (self.root / f"crates/{crate}/out").mkdir(parents=True)
            (self.root / f"crates/{crate}/main.rt").write_text("")
        (self.root / "crates.txt").write_text("bench:\nlab:\n")
        self.age()
        shutil.copy(root / "lab", self.root)
        (self.root / "tools").mkdir()
        for name in ("build", "explain"):
            shutil.copy(root / "tools" / name, self.root / "tools")
        for name in ("second", "examples"):
            (self.root / name).symlink_to(root / name)
        for name in ("bench", "lab"):
            built = root / "target/bin" / name
            if not os.access(built, os.X_OK):
                sys.exit(f"{sys.argv[0]}: {built} is not built")
            shutil.copy(built, self.program([name]))
        self.lab = self.root / "lab"

    def age(self):
        """The crates and the list of crates are old."""
        for old in (self.root / "crates/bench/main.rt", self.root / "crates/lab/main.rt", self.root / "crates.txt"):
            os.utime(old, (1_000_000_000,) * 2)

    def program(self, call):
        """The program that answers a call."""
        return self.root / "target/bin" / ("bench" if call[0] == "bench" else "lab")

    def run(self, *words, given=b"", lab=None, **more):
        """lab with these words; given: the bytes of standard input, or an open file."""
        more = {"stdout": subprocess.PIPE, "stderr": subprocess.PIPE, "timeout": 60, **more}
        more |= {"input": given} if isinstance(given, bytes) else {"stdin": given}
        return subprocess.run([lab or self.lab, *words], **more)

    def path(self, name):
        """A folder for PATH that has what every Debian has and lab uses, and no rt, cargo or python3."""
        folder = self.work / name
        if not folder.exists():
            folder.mkdir()
            for program in "awk bash cat cp dirname find grep head mkdir mktemp mv readlink rm sed sh sort tail touch wc".split():
                (folder / program).symlink_to(shutil.which(program))
        return folder

    def piped(self, command, file):
        """An offered command on that file, with the bench program itself behind it, or lab."""
        bench = shlex.quote(str(self.program(["bench"])))
        command = command.replace("FILE", shlex.quote(str(file))).replace("./lab bench", bench).replace("./lab ", f"{shlex.quote(str(self.lab))} ")
        return subprocess.run(["bash", "-c", f"set -o pipefail; {command}"], capture_output=True, timeout=60)


class replaced:
    """A program of the tree with a script in its place, for a while."""

    def __init__(self, file, script):
        self.file, self.script = file, script

    def __enter__(self):
        self.was = self.file.with_name("was")
        self.file.rename(self.was)
        self.file.write_text(f"#!/bin/sh\n{self.script}\n")
        self.file.chmod(0o755)

    def __exit__(self, *_):
        self.was.replace(self.file)


def mended(tree, title, text, said, out):
    """The command that the sentence offers makes of the file one that lab answers with that."""
    checked.append(1)
    found = re.search(r"^lab: this mends (?:it|the rest): (.*)$", said.stderr.decode("utf-8", "replace"), re.M)
    if not found:
        wrong.append(f"{title}: no command is offered\n  said {said.stderr.decode('utf-8', 'replace')!r}")
        return
    with tempfile.NamedTemporaryFile(dir=tree.work) as file:
        file.write(text)
        file.flush()
        ran = tree.piped(found[1], file.name)
    refused = re.match(rb"refusal,", out) and "./lab bench" not in found[1]
    if ran.stdout != out or ran.returncode != (3 if refused else 0) or bool(ran.stderr) != bool(refused):
        wrong.append(f"{title}: {found[1]}: status {ran.returncode}, wrote {ran.stdout!r}\n  said {ran.stderr.decode('utf-8', 'replace')!r}")


def beside(case):
    """A case that runs beside others, three at a time."""
    return lambda *given, **named: waiting.append(pool.submit(case, *given, **named))


@beside
def accepted(tree, title, text, out=RECORD, call=("bench",)):
    judge(f"{' '.join(call)}: {title}", tree.run(*call, given=text), 0, out, silent=True)


@beside
def refused(tree, title, text, number, place, *says, mends=None, call=("bench",)):
    """The text is refused there, with these words; mends: what lab answers to the text that the offered command makes of it; None: none is offered."""
    title = f"{' '.join(call)}: {title}"
    ran = tree.run(*call, given=text)
    judge(title, ran, 3, refusal(number, place), (f"{'fault' if 11 <= number <= 15 else 'refusal'} {number}", *says))
    if mends is not None:
        mended(tree, title, text, ran, mends)
    elif b"this mends" in ran.stderr:
        wrong.append(f"{title}: a command is offered\n  said {ran.stderr.decode('utf-8', 'replace')!r}")


def written(rows=(("slot", "value"), *PACKETS), **form):
    """The worked example, or other rows, as the csv module writes them."""
    text = io.StringIO()
    csv.writer(text, **form).writerows(rows)
    return text.getvalue().encode()


def by_jq():
    """The worked example as jq itself writes it, where jq is there: a title and the text."""
    data = json.dumps([{"slot": slot, "value": value} for slot, value in PACKETS]).encode()
    for title, asked in (("a header", '["slot","value"],(.[]|[.slot,.value])|@csv'), ("numbers", '"slot,value",(.[]|"\\(.slot),\\(.value)")')):
        if shutil.which("jq"):
            yield f"jq itself, {title}", subprocess.run(["jq", "-r", asked], input=data, capture_output=True, check=True).stdout


def streams(tree, call, what, given, answer):
    """Reading and writing that fails, for one call whose text is that: given, and answered so."""
    name = " ".join(call)
    use = f"./lab {name} < FILE"
    program = tree.program(call)
    folder, no_read = os.open(tree.root, os.O_RDONLY), os.open(os.devnull, os.O_WRONLY)
    judge(f"{name}: a directory", tree.run(*call, given=folder), 1, b"", (f"reading the {what}", "Is a directory", use))
    ran = tree.run("-c", 'exec "$0" "$@" <&-', tree.lab, *call, lab="/bin/sh")
    judge(f"{name}: standard input closed", ran, 1, b"", (f"reading the {what} failed", "standard input is closed", use))
    judge(f"{name}: standard input that cannot be read", tree.run(*call, given=no_read), 1, b"", (f"reading the {what}", "Bad file descriptor"))
    os.close(folder)
    os.close(no_read)
    with open("/proc/self/mem", "rb", buffering=0) as memory:
        judge(f"{name}: a file whose reading fails", tree.run(*call, given=memory), 1, b"", (f"reading the {what}", "Input/output error"))
    for title, text in ((name, given), (f"{name}, a refusal", b"x")):
        writing(tree, title, call, text)

    def small_files():
        signal.signal(signal.SIGXFSZ, signal.SIG_IGN)
        resource.setrlimit(resource.RLIMIT_FSIZE, (16_384, 16_384))

    many = b"slot,value\r\n" + b"1,1\r\n" * 2048
    if answer == RECORD:
        judge(f"{name}: a full disk for temporary files", tree.run(*call, given=many, preexec_fn=small_files), 1, b"", (f"{call[0]} did not answer in full", "full?"))
    judge(f"{name}: that disk, for the text", tree.run(*call, given=many * 2, preexec_fn=small_files), 1, b"", (f"reading the {what}", "File too large"))
    if call[0] != "bench":
        text = many.replace(b"1,1", b"1,1234").replace(b"\r", b"")
        judge(f"{name}: that disk, for the text with CRLF", tree.run(*call, given=text, preexec_fn=small_files), 1, b"", ("temporary file", "full?"))
    nowhere = {**os.environ, "TMPDIR": str(tree.work / "nowhere")}
    judge(f"{name}: no folder for temporary files", tree.run(*call, given=given, env=nowhere), 1, b"", ("temporary files", "nowhere"))
    temporary = tree.work / "temporary"
    temporary.mkdir(exist_ok=True)
    for text in (given, b"x"):
        tree.run(*call, given=text, env={**os.environ, "TMPDIR": str(temporary)})
    if list(temporary.iterdir()):
        wrong.append(f"{name}: temporary files stay: {list(temporary.iterdir())}")

    # An answer that is not whole: cut at each line's end, in a line, and in the last line's end; another program's; none.
    ends = [place + 2 for place in range(len(answer)) if answer[place : place + 2] == b"\r\n"]
    head = answer[: ends[0]]
    cuts = [answer[:end] for end in ends[:-1]] + [answer[:-1], answer[:-2], answer[:-3], answer + answer[ends[-2] :], answer[ends[0] :], b"", b"no\r\n" + answer[ends[0] :]]
    cuts += [b"refusal,place\r\n" + second for second in (b"", b"21", b"21,\r\n", b"21,1\n", b"21,1", b"21,1\r\n2,0\r\n")] + [head + b"\r\n" * (len(ends) - 1)]
    for cut in cuts:
        (tree.work / "cut").write_bytes(cut)
        with replaced(program, f"cat '{tree.work}/cut'"):
            judge(f"{name}: the answer {cut!r}", tree.run(*call, given=given), 1, b"", (f"{call[0]} did not answer in full",))
    with replaced(program, "exit 0"):
        judge(f"{name}: no answer to no text", tree.run(*call, given=b""), 1, b"", ("did not answer in full",))
    with replaced(program, "kill -9 $$"):
        judge(f"{name}: a program that is killed", tree.run(*call, given=given), 1, b"", ("did not answer in full (status 137)",))


def writing(tree, title, words, given):
    """Standard output that cannot be written."""
    with open("/dev/full", "wb") as full:
        judge(f"{title}, a full disk", tree.run(*words, given=given, stdout=full), 1, None, ("writing to standard output failed", "No space left"))
    ends = os.pipe()
    os.close(ends[0])
    judge(f"{title}, a pipe closed by its reader", tree.run(*words, given=given, stdout=ends[1]), 1, None, ("writing to standard output failed", "Broken pipe"))
    judge(f"{title}, that pipe for sentences too", tree.run(*words, given=given, stdout=ends[1], stderr=ends[1]), 1)
    os.close(ends[1])
    ran = tree.run("-c", 'exec "$0" "$@" >&-', tree.lab, *words, given=given, lab="/bin/sh")
    judge(f"{title}, standard output closed", ran, 1, b"", ("standard output is closed",))


def typed(tree, words, text):
    """lab with a terminal on standard input, at which this is typed and ended with Ctrl-D: the run, with what was said before, and what was said then."""
    master, slave = pty.openpty()
    running = subprocess.Popen([tree.lab, *words], stdin=slave, stdout=subprocess.PIPE, stderr=subprocess.PIPE)
    hint = running.stderr.readline() if select.select([running.stderr], [], [], 20)[0] else b""
    os.write(master, text + b"\x04")
    out, errors = running.communicate(timeout=60)
    os.close(slave)
    os.close(master)
    return subprocess.CompletedProcess(words, running.returncode, out, hint), errors


def shown(command, **how):
    """What a command of the shell writes to a terminal, on standard output and standard error, without CR; and its status."""
    master, slave = pty.openpty()
    running = subprocess.Popen(["bash", "-c", command], stdin=subprocess.DEVNULL, stdout=slave, stderr=slave, **how)
    os.close(slave)
    said = b""
    while True:
        try:
            piece = os.read(master, 65_536)
        except OSError:
            break  # the other end is closed
        if not piece:
            break
        said += piece
    os.close(master)
    return said.replace(b"\r", b"").decode("utf-8", "replace"), running.wait(timeout=60)


def places(tree, call, what, given, answer):
    """Links, folders, and programs that are missing, for one call."""
    title = " ".join(call)
    program = tree.program(call)
    name = program.name
    link = tree.work / "elsewhere"
    if not link.exists():
        link.mkdir()
        (link / "first").symlink_to(tree.lab)
        (link / "laboratory").symlink_to("first")
    on_path = {**os.environ, "PATH": f"{link}:{os.environ['PATH']}"}
    judge(f"{title}: a link to a link", tree.run(*call, given=given, lab=link / "laboratory", cwd="/"), 0, answer, silent=True)
    judge(f"{title}: a relative link", tree.run(*call, given=given, lab="./laboratory", cwd=link), 0, answer, silent=True)
    judge(f"{title}: a refusal through a link", tree.run(*call, given=b"x", lab="./first", cwd=link), 3, refusal(21, 1), ("the header is 'x'",))
    judge(f"{title}: found on the path", tree.run(*call, given=given, lab="laboratory", cwd="/", env=on_path), 0, answer, silent=True)
    judge(f"{title}: with CDPATH", tree.run(*call, given=given, lab="a tree/lab", cwd=tree.work, env={**os.environ, "CDPATH": "/tmp"}), 0, answer, silent=True)
    judge(f"{title}: by bash", tree.run("lab", *call, given=given, lab="bash", cwd=tree.root), 0, answer, silent=True)

    bare = {**os.environ, "PATH": str(tree.path("bare"))}
    judge(f"{title}: nothing else on the path", tree.run(*call, given=given, env=bare), 0, answer, silent=True)
    ran = tree.run(*call, given=b"x", env=bare)
    judge(f"{title}: a refusal without python3", ran, 3, refusal(21, 1), ("refusal 21 at line 1", "malformed", "CSV", "python3 is not on the path", what))

    for said, file in (("a crate", tree.root / "crates/bench/main.rt"), ("crates.txt", tree.root / "crates.txt")):
        os.utime(file)
        os.utime(program, (1_500_000_000,) * 2)
        ran = tree.run(*call, given=given, env=bare)
        judge(f"{title}: {said} newer than the program, no rt", ran, 1, b"", (f"{name} needs rt", "Rattle", "not on the path", "older than a crate"))
        tree.age()
    judge(f"{title}: old again", tree.run(*call, given=given, env=bare), 0, answer, silent=True)
    kit = tree.path("kit")
    with_kit = {**os.environ, "PATH": str(kit)}
    rt, log = kit / "rt", tree.root / f"target/lab-{name}.log"
    was = program.rename(tree.work / "built")
    judge(f"{title}: no program, no rt", tree.run(*call, given=given, env=bare), 1, b"", (f"{name} needs rt", "missing"))
    rt.write_text("#!/bin/sh\ncat\nfor i in 1 2 3 4 5 6; do echo \"line $i\"; done\nexit 1\n")
    rt.chmod(0o755)
    ran = tree.run(*call, given=given, env=with_kit)
    said = (f"proving and building {name}", f"{name} was not proved", f"target/lab-{name}.log", "\nline 2\nline 3\nline 4\nline 5\nline 6\n")
    judge(f"{title}: the program is not proved", ran, 1, b"", said)
    if b"line 1\n" in ran.stderr or "slot" in log.read_text():
        wrong.append(f"{title}: the program is not proved: more than five lines are shown, or rt read the text")
    rt.write_text("#!/bin/sh\nexit 0\n")
    said = (f"{name} was not proved", f"target/lab-{name}.log", f"{name} is proved, and yet crates/{name}/out/{name} is not there")
    judge(f"{title}: proved and not there", tree.run(*call, given=given, env=with_kit), 1, b"", said)
    with replaced(tree.root / "tools/build", "exit 0"):
        judge(f"{title}: built and not there", tree.run(*call, given=given, env=with_kit), 1, b"", ("proved and yet not in target/bin",))
    made = f"out/{name}"
    rt.write_text(f'#!/bin/sh\necho "$PWD: $@"\ncat\ncat "{was}" > {made}\n/bin/chmod +x {made}\n')
    judge(f"{title}: proved and built", tree.run(*call, given=given, env=with_kit, cwd="/"), 0, answer, (f"proving and building {name}", "some minutes"))
    if log.read_text() != f"{tree.root}/crates/{name}: run\n":
        wrong.append(f"{title}: rt was called so: {log.read_text()}")
    judge(f"{title}: not again", tree.run(*call, given=given, env=with_kit), 0, answer, silent=True)
    # What rt ci has left there is taken as it is.
    program.unlink()
    rt.write_text("#!/bin/sh\nexit 1\n")
    judge(f"{title}: proved already", tree.run(*call, given=given, env=with_kit), 0, answer, (f"proving and building {name}",))
    (tree.root / f"crates/{name}/{made}").unlink()
    judge(f"{title}: not again either", tree.run(*call, given=given, env=with_kit), 0, answer, silent=True)


def finish(root, parts, success):
    """Every part, each on the same tree; then one line, or what is wrong."""
    with tempfile.TemporaryDirectory() as work:
        tree = Tree(root, pathlib.Path(work).resolve())
        for part in parts:
            part(tree)
            while waiting:
                waiting.pop().result()
    print("\n".join(wrong) or success())
    sys.exit(bool(wrong))
