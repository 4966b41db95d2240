#!/usr/bin/env python3
"""Bad input and faults at the program: nothing is lost, and each ends in one clear line.

    python3 tests/faults.py PROGRAM [ROUNDS]

Random bytes as scripts and as images, images cut short or too long, an image that becomes something else during a run, a folder or an unreadable file for
an image, a disk without room, an output that takes nothing, and kills at random moments of a run over an image. What is expected comes from the reference.
ROUNDS (20 unless said) is how often each random test is made.
"""
import os
import pathlib
import random
import resource
import shutil
import signal
import subprocess
import sys
import tempfile
import time

sys.path.insert(0, str(pathlib.Path(__file__).resolve().parent.parent / "reference"))

import book  # noqa: E402
import lines  # noqa: E402
import rulebook  # noqa: E402

PROGRAM = os.path.realpath(sys.argv[1])
ROUNDS = int(sys.argv[2]) if len(sys.argv) > 2 else 20
checks = 0


def expect(right, what):
    global checks
    checks += 1
    if not right:
        sys.exit(f"tests/faults.py: FAILED: {what}")


def run(words, data=b"", **options):
    return subprocess.run([PROGRAM, *words], input=data, stdout=subprocess.PIPE, stderr=subprocess.PIPE, check=False, **options)


def one_line(done, line, what):
    """The run ended with status 1, with this line on standard error."""
    expect(done.returncode == 1, f"{what}: status {done.returncode}")
    expect(done.stderr == line.encode() + b"\n", f"{what}: said {done.stderr!r}")


def formatted(count):
    memory = bytearray(512 * rulebook.block_count(count))
    rulebook.format_blocks(memory, count)
    return memory


def open_table():
    return rulebook.TableStore([list(rulebook.OPEN_RULE) for _ in range(4)])


def random_line(chance):
    """Bytes that look a little like a line, or do not."""
    if chance.random() < 0.5:
        return bytes(chance.choice(b"bfrwdpcalkt 0123456789./-allowblock\r\t\x00") for _ in range(chance.randrange(90)))
    return bytes(chance.randrange(256) for _ in range(chance.choice((0, 1, 5, 30, 79, 80, 81, 82, 500))))


def scripts_of_random_bytes(chance):
    for _ in range(ROUNDS):
        script = b"\n".join(random_line(chance) for _ in range(chance.randrange(60)))
        done = run([], script)
        expect(done.returncode == 0 and not done.stderr, "a script of random bytes")
        expect(done.stdout == book.Book(open_table()).run(script, lines.CLOCK), f"the answers to {script!r}")


def told(image):
    """What the reference says of an image: its count, or the refusal."""
    try:
        return rulebook.open_image(bytearray(image)).count
    except rulebook.Refusal as refusal:
        return refusal


def images_of_random_bytes(chance, folder):
    file = folder / "random.img"
    for turn in range(ROUNDS):
        whole = bytes(formatted(chance.choice((1, 4, 32, 33, 64))))
        bytes_now = chance.choice((
            chance.randbytes(chance.choice((0, 1, 511, 512, 513, 1024, 1536))),
            whole[:chance.randrange(len(whole))],
            whole + chance.randbytes(chance.choice((1, 512, 1024))),
            whole[:-1] + bytes([chance.randrange(1, 256)]),
            whole,
        )) if turn else whole
        file.write_bytes(bytes_now)
        expected = told(bytes_now)
        for words in (["check", str(file)], ["show", str(file)], ["--image", str(file)], ["set", str(file), "0", "0.0.0.0/0", "allow", "0-65535"]):
            done = run(words)
            if isinstance(expected, int):
                expect(done.returncode == 0 and not done.stderr, f"{words[0]} of a whole image: {done.stderr!r}")
            else:
                expect(done.returncode == 1 and done.stderr.startswith(f"rulebook: refused {expected}: ".encode()), f"{words[0]} of a bad image: {done.stderr!r}, not {expected}")
                expect(done.stderr.count(b"\n") == 1 and not done.stdout, f"{words[0]} of a bad image: more than one line")
                expect(file.read_bytes() == bytes_now, f"{words[0]} of a bad image changed it")
        expect(not (folder / "random.img.new").exists(), "a new file was left behind")


def writing_script(commits):
    """A script that commits so often, each time another rule in another slot, and the images after each commit."""
    store = rulebook.BlockStore(formatted(64), 64)
    images = [bytes(store.memory)]
    calls = []
    for number in range(commits):
        slot = number * 7 % 64
        rule = f"10.{number // 256 % 256}.{number % 256}.0/24 block 0-{number % 65536}"
        calls += ["b 0", f"f 0 {slot}" if number < 64 else f"r 0 {slot}", f"r 0 {slot}", f"w 0 {slot} {rule}", f"p 0 {number + 1}.0", "c 0", f"t {number + 1}.0"]
        store.put(slot, rulebook.read_rule(rule.encode()))
        images.append(bytes(store.memory))
    return "".join(call + "\n" for call in calls).encode(), images


def kills(chance, folder):
    """A kill at any moment leaves the image of the last commit answered, or of the one after it."""
    script, images = writing_script(300)
    file, calls = folder / "killed.img", folder / "killed.script"
    calls.write_bytes(script)
    for _ in range(ROUNDS):
        file.write_bytes(images[0])
        with subprocess.Popen([PROGRAM, "--image", str(file), str(calls)], stdout=subprocess.PIPE) as running:
            time.sleep(chance.random() * 0.25)
            running.kill()
            answers, _ = running.communicate()
        committed = sum(1 for answer in answers.split(b"\n")[:-1] if int(answer.split()[0]) % 7 == 6)
        expect(file.read_bytes() in images[committed:committed + 2], f"the image after a kill at commit {committed}")
        expect(run(["check", str(file)]).returncode == 0, "the check of an image after a kill")


def changes_kind(folder):
    """The image becomes a folder during the run: the commit is not answered, and nothing is left behind."""
    script, images = writing_script(2)
    calls = script.splitlines(keepends=True)
    file = folder / "kind.img"
    file.write_bytes(images[0])
    with subprocess.Popen([PROGRAM, "--image", str(file)], stdin=subprocess.PIPE, stdout=subprocess.PIPE, stderr=subprocess.PIPE) as running:
        for call in calls[:7]:
            running.stdin.write(call)
            running.stdin.flush()
            running.stdout.readline()
        expect(file.read_bytes() == images[1], "the image after the first commit")
        file.unlink()
        file.mkdir()
        answers, said = running.communicate(b"".join(calls[7:]))
        expect(running.returncode == 1, "a run whose image became a folder")
        expect(answers.count(b"\n") == 5, "a commit that was not kept is not answered")
        expect(said == f"rulebook: cannot write {file}: Is a directory (os error 21)\n".encode(), f"said {said!r}")
    expect(not (folder / "kind.img.new").exists(), "a new file was left behind")
    one_line(run(["format", str(file), "4"]), f"rulebook: cannot write {file}: Is a directory (os error 21)", "format of a folder")
    expect(not (folder / "kind.img.new").exists(), "a new file was left behind")


def no_room(folder):
    """A limit on the size of files stands for a full disk: the image is as it was, and one line says so."""
    def limited():
        signal.signal(signal.SIGXFSZ, signal.SIG_IGN)
        resource.setrlimit(resource.RLIMIT_FSIZE, (100, 100))

    script, images = writing_script(1)
    file = folder / "room.img"
    file.write_bytes(images[0])
    for words, data in ((["format", str(file), "4"], b""), (["set", str(file), "0", "10.0.0.0/8", "block", "0-1"], b""), (["--image", str(file)], script)):
        done = run(words, data, preexec_fn=limited)
        one_line(done, f"rulebook: cannot write {file}: File too large (os error 27)", f"{words[0]} without room")
        expect(file.read_bytes() == images[0], f"{words[0]} without room changed the image")
        expect(not (folder / "room.img.new").exists(), "a new file was left behind")
    with open("/dev/full", "wb") as full:
        done = subprocess.run([PROGRAM, "--image", str(file)], input=script, stdout=full, stderr=subprocess.PIPE, check=False)
    expect(done.returncode == 1 and done.stderr == b"rulebook: cannot write standard output: No space left on device (os error 28)\n", f"an output that takes nothing: {done.stderr!r}")
    expect(file.read_bytes() == images[0], "an output that takes nothing: nothing was committed")


def folders(folder):
    """A folder in the place of a script or an image."""
    for words in (["lint", str(folder)], [str(folder)], ["show", str(folder)], ["--image", str(folder)]):
        one_line(run(words), f"rulebook: cannot read {folder}: Is a directory (os error 21)", f"{words[0]} of a folder")


def permissions(folder):
    """A new image has the permissions of the old one. An image that may not be read or written is left alone."""
    file = folder / "kept.img"
    file.write_bytes(bytes(formatted(4)))
    file.chmod(0o640)
    expect(run(["set", str(file), "0", "10.0.0.0/8", "block", "0-1"]).returncode == 0, "set")
    expect(file.stat().st_mode & 0o777 == 0o640, "the permissions of an image")
    if os.geteuid() != 0 or not shutil.which("setpriv"):
        return
    others = ["setpriv", "--reuid=65534", "--regid=65534", "--clear-groups", PROGRAM]
    file.chmod(0o600)
    folder.chmod(0o777)
    done = subprocess.run([*others, "show", str(file)], stdout=subprocess.PIPE, stderr=subprocess.PIPE, check=False)
    if b"Permission denied (os error 13)" not in done.stderr or not done.stderr.startswith(b"rulebook: "):
        return  # the program itself cannot be run by others here
    one_line(done, f"rulebook: cannot read {file}: Permission denied (os error 13)", "an image that may not be read")
    file.chmod(0o444)
    before = file.read_bytes()
    done = subprocess.run([*others, "set", str(file), "0", "0.0.0.0/0", "allow", "0-65535"], stdout=subprocess.PIPE, stderr=subprocess.PIPE, check=False)
    one_line(done, f"rulebook: cannot write {file}: Permission denied (os error 13)", "an image that may not be written")
    expect(file.read_bytes() == before, "an image that may not be written")


def main():
    chance = random.Random(20)
    with tempfile.TemporaryDirectory() as name:
        folder = pathlib.Path(name)
        scripts_of_random_bytes(chance)
        images_of_random_bytes(chance, folder)
        changes_kind(folder)
        no_room(folder)
        folders(folder)
        permissions(folder)
        kills(chance, folder)
    print(f"tests/faults.py: {checks} checks")


if __name__ == "__main__":
    main()
