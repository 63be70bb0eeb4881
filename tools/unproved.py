"""Runs a program that `rt try` compiles. No function is proved, and nothing is kept."""
import re
import subprocess
import tempfile


def run(home, inputs, seconds):
    """Compiles the program in a folder once and runs it on each input.

    Yields what each run printed, and how it ended. The second is an empty text if the run ended with status 0.
    """
    with tempfile.TemporaryDirectory() as room:
        for at, text in enumerate(inputs):
            with open(f"{room}/{at}", "w", encoding="utf-8") as file:
                file.write(text)
        words = ["rt", "try", "--cases", room, "--seconds", str(seconds), "--steps", "1"]
        ran = subprocess.run(words, cwd=home, stdin=subprocess.DEVNULL, capture_output=True, text=True, errors="replace", check=False)
    outputs = dict(re.findall(r"(?ms)^== (\d+)\n(.*?)(?=^== \d+$|\Z)", ran.stdout))
    told = {it[1]: it for it in re.findall(r"(?ms)(.*?)^case=(\d+) (run=.*?)$", ran.stderr)}
    for at in range(len(inputs)):
        said, _, how = told.get(str(at), (ran.stderr, "", "it was not run"))
        # If a run broke off, `rt try` shows the last lines that it printed.
        output = outputs.get(str(at)) or "\n".join(re.findall(r"(?m)^\| (.*)", said))
        yield output, "" if how.startswith("run=ended status=0 ") else f"{how}: {said.strip()[-400:]}"
