"""Queries that are canceled, time out, lack memory or are killed, and queries of many clients."""
import os
import re
import signal
import subprocess
import time

EDGES = 100_000
LATE = 0.2  # seconds within which a cancel has to take effect
STRIP = "SELECT i AS id, i AS source, i + 1 + (i % 3) AS target, (i * 7919) % 1000003 AS cost FROM generate_series(1::bigint, {}) i"


def expect_too_many_vertices(server, most):
    query = f"SELECT i AS id, i AS source, i + 1 AS target, 1 AS cost FROM generate_series(1, {most}) i"
    for call in (f"boruvka_forest(id, source, target, cost) FROM ({query}) it", f"* FROM boruvka_kruskal('{query}')"):
        status, _, errors = server.psql(f"\\set VERBOSITY verbose\nSELECT {call}")
        if not status or f"54000: edge {most} exceeds the limit of {most} vertices" not in errors or "HINT:" not in errors:
            raise AssertionError(f"{call:.60}: {status} {errors}")
        server.expect(f"SELECT {call.replace(str(most), str(most - 1))}")


FUNCTIONS = ["aggregate", "kruskal", "components", "linkage", "clusters", "tree"]


def calls(table):
    """Each of FUNCTIONS over a table."""
    query = f"SELECT id, source, target, cost FROM {table}"
    yield "aggregate", f"SELECT cardinality(boruvka_forest(id, source, target, cost)) FROM {table}"
    yield "kruskal", f"SELECT count(*) FROM boruvka_kruskal('{query}')"
    yield "components", f"SELECT count(*) FROM boruvka_components('{query}')"
    yield "linkage", f"SELECT count(*) FROM boruvka_linkage('{query}')"
    yield "clusters", f"SELECT count(*) FROM boruvka_clusters('{query}', height => 5000)"
    yield "tree", f"SELECT count(*) FROM boruvka_tree('{query}', 1)"


def filled(server, edges):
    server.expect(f"CREATE TABLE IF NOT EXISTS strip_{edges} AS {STRIP.format(edges)}; ANALYZE strip_{edges}")
    return f"strip_{edges}"


def lateness(server, call, seconds):
    """How many seconds after a timeout a call ended, by psql's clock, or None if it ended before."""
    status, output, errors = server.psql(f"SET statement_timeout = {int(seconds * 1000)};\n\\timing on\n{call};", seconds=3600)
    if status and "canceling statement due to statement timeout" not in errors:
        raise AssertionError(f"{call}: {errors}")
    return seconds_of(output) - seconds if status else None


def seconds_of(output):
    """The last time that psql printed."""
    return float(re.findall(r"^Time: ([\d.]+) ms", output, re.M)[-1]) / 1000


def expect_timeouts(server, table, names, fractions, late):
    """For each of these functions: how many seconds after a timeout it ended at the latest, how long it takes without a timeout,
    and how many timeouts it had."""
    found = {}
    for name, call in calls(table):
        if name in names:
            whole = seconds_of(server.expect(f"\\timing on\n{call};", seconds=3600))
            ends = [it for it in (lateness(server, call, whole * part) for part in fractions) if it is not None]
            found[name] = (round(max(ends, default=0), 3), round(whole, 1), len(ends))
    if not any(ends for _, _, ends in found.values()) or max(found.values())[0] > late:
        raise AssertionError(f"(latest end after a timeout, time without a timeout, timeouts): {found}")
    return found


def timeouts(server):
    expect_timeouts(server, filled(server, EDGES), FUNCTIONS, [0.2, 0.4], LATE + 0.3)  # (the machine may be busy)


def a_cancel(server):
    table = filled(server, EDGES)
    for _, call in calls(table):
        started = server.start(f"/* to cancel */ {'; '.join([call] * 20)}")
        time.sleep(0.15)
        server.expect("SELECT pg_cancel_backend(pid) FROM pg_stat_activity WHERE query LIKE '/* to cancel%'")
        _, errors = started.communicate(timeout=30)
        if "canceling statement due to user request" not in errors:
            raise AssertionError(f"{call}: {errors}")


def little_work_mem(server):
    table = filled(server, EDGES)
    for _, call in calls(table):
        if server.expect(f"SET work_mem = '64kB'; {call}") != server.expect(call):
            raise AssertionError(call)


def memory_after_errors(server):
    """A session uses no more memory after many errors than before them."""
    table = filled(server, EDGES)
    query = f"SELECT id, source, target, CASE WHEN id = 60000 THEN ''NaN'' ELSE cost::float8 END AS cost FROM {table} WHERE id <= 60000"
    server_side = f"""DO $$ BEGIN FOR i IN 1..ROUNDS LOOP
        BEGIN PERFORM * FROM boruvka_kruskal('{query}'); EXCEPTION WHEN invalid_parameter_value THEN NULL; END;
        BEGIN PERFORM boruvka_forest(id, source, target, CASE WHEN id = 60000 THEN 'NaN' ELSE cost::float8 END) FROM {table} WHERE id <= 60000;
        EXCEPTION WHEN invalid_parameter_value THEN NULL; END;
        PERFORM boruvka_forest(id, source, target, cost) FROM {table} WHERE id <= 60000;
        PERFORM * FROM boruvka_linkage('SELECT * FROM {table} WHERE id <= 2000');
        END LOOP; END $$;"""
    status = "SELECT substring(pg_read_file('/proc/self/status') FROM 'VmRSS:\\s+(\\d+)');"
    output = server.expect(server_side.replace("ROUNDS", "5") + status + server_side.replace("ROUNDS", "15") + status)
    before, after = map(int, output.split())  # kB
    if after > before + 4000:
        raise AssertionError(f"{before} kB before, {after} kB after")


def a_killed_process(server):
    """The server restarts after one of its processes was killed, and returns the same result as before."""
    table = filled(server, EDGES)
    call = dict(calls(table))["linkage"]
    wanted = server.expect(call)
    started = server.start(f"/* to kill */ {'; '.join([call] * 200)}")
    until, pid = time.monotonic() + 60, ""
    while not pid and time.monotonic() < until:  # a busy machine takes its time to start the process
        pid = server.expect("SELECT pid FROM pg_stat_activity WHERE query LIKE '/* to kill%'")
    pid = int(pid)
    if f"{server.folder}/" not in os.readlink(f"/proc/{pid}/exe"):
        raise AssertionError(f"the process {pid} is not one of this server")
    os.kill(pid, signal.SIGKILL)
    _, errors = started.communicate(timeout=60)
    if "server closed the connection" not in errors:
        raise AssertionError(errors)
    server.wait()
    if server.expect(call) != wanted:
        raise AssertionError("the result is different")


def many_clients(server):
    table = filled(server, EDGES)
    script = "; ".join(call.replace(table, f"(SELECT * FROM {table} LIMIT 50000) it") for _, call in calls(table))
    started = [server.start(script) for _ in range(20)]
    answers = {it.communicate(timeout=300) + (it.returncode,) for it in started}
    if len(answers) != 1 or next(iter(answers))[2]:
        raise AssertionError(answers)


def no_memory(server):
    """A query of a process without free memory fails with an error that says so, and the session goes on."""
    table = filled(server, EDGES)
    pid_and_limit = "SELECT pg_backend_pid(), substring(pg_read_file('/proc/self/status') FROM 'VmSize:\\s+(\\d+)')"
    for name, call in calls(table):
        status, output, errors = limited(server, f"{pid_and_limit};\n{call};\nSELECT 'goes on';\n")
        if not re.search(r"out of memory", errors) or "goes on" not in output:
            raise AssertionError(f"{name}: {status} {output} {errors}")


def limited(server, script):
    """Runs a script in a session. After its first line, the process may allocate only 8 MB more."""
    words = [it for it in server.words() if it not in ("-v", "ON_ERROR_STOP=1")]
    with subprocess.Popen(words, stdin=subprocess.PIPE, stdout=subprocess.PIPE, stderr=subprocess.PIPE, text=True) as started:
        first, _, rest = script.partition("\n")
        started.stdin.write(f"{first}\n")
        started.stdin.flush()
        pid, size = map(int, started.stdout.readline().split("|"))
        limit = ["prlimit", f"--pid={pid}", f"--as={size * 1024 + 8 * 2**20}"]
        subprocess.run(limit, check=True, **server.owner)
        output, errors = started.communicate(rest, timeout=60)
        return started.returncode, output, errors


SHORT = [timeouts, a_cancel, little_work_mem, memory_after_errors, no_memory, many_clients, a_killed_process]
