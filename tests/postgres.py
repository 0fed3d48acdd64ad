"""Queries as they are drawn and as WDREPORT respells them, answered by PostgreSQL: what random_units.py and random_equations.py share."""

import argparse
import glob
import os
import random
import subprocess
import tempfile


def folder_of_programs():
    """Where the programs of the newest PostgreSQL stand, of 15 and later ones; None where there is none."""
    found = [path.split("/") for path in glob.glob("/usr/lib/postgresql/*/bin/initdb")]
    numbers = [int(parts[4]) for parts in found if parts[4].isdigit() and int(parts[4]) >= 15]
    return f"/usr/lib/postgresql/{max(numbers)}/bin" if numbers else None


class Server:
    """A server of PostgreSQL of its own, with its files in a folder."""

    def __init__(self, folder):
        self.folder = folder
        os.chmod(folder, 0o777)
        self.as_user = ["setpriv", "--reuid=65534", "--regid=65534", "--clear-groups"] if os.getuid() == 0 else []
        self.run("initdb", "-D", f"{folder}/data", "-A", "trust", "-U", "postgres")
        self.run("pg_ctl", "-D", f"{folder}/data", "-w", "-l", f"{folder}/log", "-o", f"-k {folder} -c listen_addresses= -c fsync=off", "start")

    def run(self, name, *words):
        subprocess.run([*self.as_user, f"{folder_of_programs()}/{name}", *words], check=True, stdout=subprocess.DEVNULL, stderr=subprocess.DEVNULL)

    def stop(self):
        self.run("pg_ctl", "-D", f"{self.folder}/data", "-m", "immediate", "stop")

    def ask(self, text):
        """The rows that statements print, sorted, and their errors."""
        ran = subprocess.run(["psql", "-X", "-h", self.folder, "-U", "postgres", "-qAt", "-f", "-"], input=text, capture_output=True, text=True)
        return sorted(ran.stdout.splitlines()), ran.stderr


def starts():
    """Whether a server starts here."""
    if not folder_of_programs():
        return False
    try:
        with tempfile.TemporaryDirectory() as folder:
            Server(folder).stop()
        return True
    except (OSError, subprocess.CalledProcessError) as error:
        print(f"no server of PostgreSQL starts here, so it is asked nothing: {error}")
        return False


def respelled(program, folder, query):
    """The query as the program respells it, or None where it does not read it."""
    with open(f"{folder}/q.sql", "w", encoding="utf-8") as file:
        file.write(query)
    judged = subprocess.run([program, "q.sql"], cwd=folder, capture_output=True, text=True)
    if judged.returncode not in (0, 1):
        return None
    shown = subprocess.run([program, "--show-respelled", "q.sql"], cwd=folder, capture_output=True, text=True).stdout
    return " ".join(shown.split("-- q.sql")[1].split()) if "-- q.sql" in shown else query


def compared(server, before, query, other, shows):
    """Whether both texts have the same rows, and whether they have any."""
    first, second = (server.ask(f"{said} {text};") for said, text in zip(before, (query, other)))
    same = first == second and not first[1]
    if shows or not same:
        print(f"{'same' if same else 'DIFFERS'}: {query}\n  {other}")
        print("" if same else f"  {first}\n  {second}")
    return same, bool(first[0])


def main(schema, tables, draws, before):
    """Draws queries over a schema whose tables these statements fill, and compares. `tables` and `draws` take what draws; `before` is what
    is said before a query as it was drawn, and as it is respelled."""
    words = argparse.ArgumentParser()
    words.add_argument("program", nargs="?", default="crates/wdreport/out/wdreport")
    words.add_argument("--number", type=int, default=400)
    words.add_argument("--seed", type=int, default=1)
    words.add_argument("--show", action="store_true")
    words.add_argument("--installed", action="store_true")
    asked = words.parse_args()
    if asked.installed:
        return 0 if starts() else 3
    draw, program = random.Random(asked.seed), os.path.abspath(asked.program)
    with tempfile.TemporaryDirectory() as folder, tempfile.TemporaryDirectory() as work:
        server = Server(folder)
        try:
            server.ask(tables(draw))
            with open(f"{work}/schema.sql", "w", encoding="utf-8") as file:
                file.write(schema)
            drawn = [draws(draw) for _ in range(asked.number)]
            pairs = [(query, respelled(program, work, query)) for query in drawn]
            results = [compared(server, before, query, other, asked.show) for query, other in pairs if other is not None]
        finally:
            server.stop()
    if asked.show:
        print(*[f"not read: {query}" for query, other in pairs if other is None], sep="\n")
    print(f"{asked.number} queries, {len(results)} read; {sum(some for _, some in results)} answers have rows")
    passed, enough = sum(same for same, _ in results), 2 * len(results) >= asked.number
    print(f"{passed + enough} passed, {len(results) - passed + (not enough)} failed")
    return 0 if enough and passed == len(results) else 1
