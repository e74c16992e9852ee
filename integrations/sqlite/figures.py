#!/usr/bin/env python3
"""What a row takes in SQLite, in nanoseconds of the processor: the least of so many repetitions.

    figures.py EXTENSION ROWS REPETITIONS    prints a name, a bar and a number a line
"""
import sqlite3, sys, time

QUERIES = {
    "expr_true, JSON": """records WHERE expr_true('age > 18 and country in ["DE", "FR"]', record)""",
    "->>": "records WHERE record->>'age' > 18 AND record->>'country' IN ('DE', 'FR')",
    "expr_true, columns": """columns WHERE expr_true('age > 18 and country in ["DE", "FR"]', 'age', age, 'country', country)""",
    "columns": "columns WHERE age > 18 AND country IN ('DE', 'FR')",
}


def main(extension: str, rows: int, repetitions: int) -> None:
    connection = sqlite3.connect(":memory:")
    connection.enable_load_extension(True)
    connection.load_extension(extension)
    connection.execute("CREATE TABLE columns (id, age, country)")
    connection.executemany(
        "INSERT INTO columns VALUES (?, ?, ?)", ((i, i % 60, "DE" if i % 3 == 0 else "US") for i in range(1, rows + 1))
    )
    connection.execute(
        "CREATE TABLE records AS SELECT json_object('id', id, 'age', age, 'name', 'n' || id, 'country', country, 'score', id * 3,"
        " 'tags', json_array('a', 'b')) AS record FROM columns"
    )
    counts, least = set(), dict.fromkeys(QUERIES, float("inf"))
    for _ in range(repetitions):
        for name, query in QUERIES.items():
            start = time.process_time()
            counts.add(connection.execute("SELECT count(*) FROM " + query).fetchone()[0])
            least[name] = min(least[name], time.process_time() - start)
    if len(counts) != 1:
        raise ValueError(f"the queries count different rows: {counts}")
    for name, seconds in least.items():
        print(f"{name}|{seconds / rows * 1e9:.0f}")


if __name__ == "__main__":
    main(sys.argv[1], int(sys.argv[2]), int(sys.argv[3]))
