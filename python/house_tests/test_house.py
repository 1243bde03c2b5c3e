"""The bill of many machines is that of one, whatever happens on the way."""

from __future__ import annotations

import csv
import os
import random
import signal
import sqlite3
import subprocess
import threading
from contextlib import closing
from pathlib import Path

import pytest
import usm
from conftest import KEYS, TENANTS, Cluster, Run, Server, make_house, wait_until
from usm._held import Held
from usm._holdings import holdings as read
from usm.house._database import Database
from usm.house._work import work


def expected(holdings: Path) -> str:
    return usm.bill(holdings).csv().replace("\r\n", "\n")


def pairs(holdings: Path) -> int:
    """How many films and keys can be billed."""
    made = {(film, key) for _, key, film, _ in read(holdings)}
    unbilled = {unbilled.film for unbilled in usm.bill(holdings).unbilled}
    return sum(film not in unbilled for film, _ in made)


def test_workers_of_this_machine_and_sqlite(tmp_path: Path) -> None:
    holdings = make_house(tmp_path / "house", 100)
    status, lines, messages = Run(holdings, "--workers", 2).end()
    assert (status, lines) == (1, expected(holdings))
    assert "100 films, 100 of them read" in messages
    assert "this bill is incomplete: 2 films could not be billed" in messages
    unbilled = [line for line in messages.splitlines() if "tenant" in line]
    assert len(unbilled) == len(usm.bill(holdings).unbilled) > 1
    assert any("refused 1 at" in line for line in unbilled) and any("No such file" in line for line in unbilled)


def test_the_lines_are_those_of_the_command(tmp_path: Path) -> None:
    command = os.environ.get("USM_COMMAND")
    if not command:
        pytest.skip("USM_COMMAND names no command to compare with")
    holdings = make_house(tmp_path / "house", 100, seed=2)
    result = subprocess.run([command, "bill", "--csv", holdings], stdout=subprocess.PIPE, text=True)
    status, lines, _ = Run(holdings, "--workers", 2).end()
    assert (status, lines) == (result.returncode, result.stdout.replace("\r\n", "\n"))


def test_a_database_that_is_kept_is_not_read_again(tmp_path: Path, server: Server) -> None:
    holdings = make_house(tmp_path / "house", 60)
    for address in (str(tmp_path / "house.sqlite"), server.address):
        asked = (holdings, "--workers", 1, "--database", address)
        first, again = Run(*asked).end(), Run(*asked).end()
        assert first[:2] == again[:2] == (1, expected(holdings))
        # The missing one is looked for again.
        assert "60 films, 60 of them read" in first[2] and "60 films, 1 of them read" in again[2]
    os.rename(tmp_path / "house" / "5.usm", tmp_path / "house" / "4.usm")
    status, lines, messages = Run(*asked).end()
    assert (status, lines) == (1, expected(holdings)) and "60 films, 3 of them read" in messages
    assert "incomplete: 3 films" in messages and "4.usm" not in messages and "5.usm" in messages


def test_a_cluster_and_postgresql_with_a_worker_killed_and_the_database_crashed(
    tmp_path: Path, server: Server, cluster: Cluster
) -> None:
    films = 2000
    holdings = make_house(tmp_path / "house", films, size=20_000)
    right = expected(holdings)
    run = Run(holdings, "--scheduler", cluster.address, "--database", server.address)

    def scanned() -> int:
        is_made = server.ask("SELECT to_regclass('usm_film') IS NOT NULL")[0][0]
        return int(server.ask("SELECT COUNT(*) FROM usm_film")[0][0]) if is_made else 0

    wait_until(lambda: scanned() > films // 20)
    cluster.kill(cluster.workers[0])
    at_the_kill = scanned()
    wait_until(lambda: scanned() > at_the_kill + films // 20)
    at_the_crash = scanned()
    server.stop("immediate")
    assert run.is_under_way
    server.start()
    assert at_the_kill < films and at_the_crash < films, "both happened in the middle"
    status, lines, messages = run.end()
    assert (status, lines) == (1, right), messages
    assert f"usm.house: {films} films" in messages
    assert scanned() == films
    assert server.ask("SELECT COUNT(*), COUNT(DISTINCT (film, given, key)) FROM usm_streams") == [(pairs(holdings),) * 2]


def test_a_process_of_this_machine_that_is_killed_is_replaced(tmp_path: Path) -> None:
    holdings = make_house(tmp_path / "house", 400, size=20_000)
    kept = tmp_path / "house.sqlite"
    run = Run(holdings, "--workers", 2, "--database", kept)
    wait_until(lambda: scanned_in(kept) > 20)
    os.kill(run.workers()[0], signal.SIGKILL)
    assert run.is_under_way and scanned_in(kept) < 400, "it happened in the middle"
    status, lines, messages = run.end()
    assert (status, lines) == (1, expected(holdings)), messages
    assert scanned_in(kept) == 400 and "Traceback" not in messages


def scanned_in(kept: Path) -> int:
    if not kept.exists():
        return 0
    with closing(sqlite3.connect(kept, timeout=60)) as database:
        is_made = database.execute("SELECT COUNT(*) FROM sqlite_master WHERE name = 'usm_film'").fetchone()[0]
        return int(database.execute("SELECT COUNT(*) FROM usm_film").fetchone()[0]) if is_made else 0


def test_an_interrupt_ends_it_at_once_and_the_next_run_goes_on(tmp_path: Path) -> None:
    holdings = make_house(tmp_path / "house", 1000, size=150_000)
    kept = tmp_path / "house.sqlite"
    run = Run(holdings, "--workers", 2, "--database", kept)
    wait_until(lambda: len(run.workers()) == 2 and all(map(ignores_interrupts, run.workers())))
    workers = run.workers()
    wait_until(lambda: scanned_in(kept) > 0)
    run.interrupt()
    status, lines, messages = run.end(30)
    done = scanned_in(kept)
    assert (status, lines) == (130, "") and "interrupted" in messages and "Traceback" not in messages
    assert 0 < done < 1000 and not any(Path(f"/proc/{worker}").exists() for worker in workers)
    status, lines, messages = Run(holdings, "--workers", 2, "--database", kept).end()
    assert (status, lines) == (1, expected(holdings))
    # The missing one is looked for again.
    assert f"1000 films, {1000 - done} of them read" in messages or f"1000 films, {1001 - done} of them read" in messages


def ignores_interrupts(process: int) -> bool:
    """A worker that does not would write its traceback between the messages."""
    status = Path(f"/proc/{process}/status").read_text()
    ignored = int(status.split("SigIgn:")[1].split()[0], 16)
    return bool(ignored & 1 << signal.SIGINT - 1)


def test_a_task_that_is_tried_several_times_at_once_leaves_its_rows_once(tmp_path: Path, server: Server) -> None:
    holdings = make_house(tmp_path / "house", 40)
    held = Held(read(holdings))
    films = list(held.films())
    for address in (server.address, str(tmp_path / "house.sqlite")):
        database = Database(address)
        database.create()
        tries = [threading.Thread(target=work, args=(database, films)) for _ in range(4)]
        for each in tries:
            each.start()
        for each in tries:
            each.join()
        assert bill_of(database, held) == usm.bill(holdings).lines


def bill_of(database: Database, held: Held) -> list[usm.Line]:
    books = database.connect()
    try:
        books.hold(held.rows())
        return list(books.lines())
    finally:
        books.close()


def test_random_houses_on_both_databases(tmp_path: Path, server: Server) -> None:
    rng = random.Random(3)
    make_house(tmp_path, 9, size=600)
    films = [str(tmp_path / f"{number}.usm") for number in range(9)]
    postgres, sqlite = Database(server.address), Database(str(tmp_path / "house.sqlite"))
    for database in (postgres, sqlite):
        database.create()
    for _ in range(40):
        count = rng.randrange(1, 60)
        house = [(rng.choice(TENANTS), rng.choice(KEYS), rng.choice(films)) for _ in range(count)]
        held = Held(read(house))
        wanted = list(held.films())
        for database in (postgres, sqlite):
            work(database, wanted)
            assert bill_of(database, held) == usm.bill(house).lines


def test_films_at_addresses(tmp_path: Path) -> None:
    holdings = make_house(tmp_path / "house", 12)
    rows = list(csv.reader(holdings.open(newline="")))
    remote = tmp_path / "remote.csv"
    with remote.open("w", newline="") as file:
        csv.writer(file).writerows([rows[0], *([*row[:2], f"file://{tmp_path}/house/{row[2]}"] for row in rows[1:])])
        csv.writer(file).writerow([7, "", "nowhere://film.usm"])
    status, lines, messages = Run(remote, "--workers", 1).end()
    assert (status, lines) == (1, expected(holdings))
    assert "nowhere://film.usm: Protocol not known" in messages


def test_what_is_wrong_is_said(tmp_path: Path) -> None:
    holdings = make_house(tmp_path / "house", 1)
    (tmp_path / "text").write_text("this is no database" * 100)
    wrong = tmp_path / "wrong.csv"
    wrong.write_text("tenant,key,film\nx,,a\n1,y,a\n")
    for words, said in (
        ((tmp_path / "no.csv",), "No such file"),
        ((wrong,), "line 3: y is no key"),
        ((wrong,), "2 wrong lines; no film was read"),
        ((holdings, "--database", "postgresql://house@127.0.0.1:1/x"), "the database: "),
        ((holdings, "--database", tmp_path / "text"), "the database: "),
        ((holdings, "--database", tmp_path / "no-folder" / "house.sqlite"), "the database: "),
        ((holdings, "--workers", "0"), "argument --workers: '0' is not a number of 1 or more"),
        ((holdings, "--scheduler", "tcp://127.0.0.1:1"), "127.0.0.1:1"),
    ):
        status, lines, messages = Run(*words).end(90)
        assert (status, lines) == (2, "") and said in messages and "Traceback" not in messages
