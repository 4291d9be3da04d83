"""What each client does for the auditing proxy's test, by PyMySQL, which sends texts alone."""

import datetime
import decimal
import sys

import pymysql

host, port, user, database, file = sys.argv[1:]


def connect(name, **how):
    return pymysql.connect(host=host, port=int(port), user=name, database=database,
                           charset="utf8mb4", autocommit=True, local_infile=True, **how)


connection = connect(user)
cursor = connection.cursor()
cursor.execute("INSERT INTO audited (id, s) VALUES (%s, %s)", (1, "it's"))
cursor.execute("SELECT id, s FROM audited WHERE id = 1")
assert cursor.fetchall() == ((1, "it's"),)
try:
    cursor.execute("SELECT * FROM audited_not_there")
    raise AssertionError("the table isn't there")
except pymysql.err.ProgrammingError as error:
    assert error.args[0] == 1146
cursor.execute("INSERT INTO audited VALUES (%s, %s, %s, %s, %s, %s, %s, %s, %s, %s)",
               (2, -7, 2**63, 1.5, "maté \N{SHAMROCK}", b"\xff\x00'", None,
                datetime.date(2024, 2, 29), datetime.datetime(2024, 2, 29, 12, 30, 1, 5),
                datetime.timedelta(hours=30, minutes=1)))
cursor.execute("SELECT s, u FROM audited WHERE id = 2")
assert cursor.fetchall() == (("maté \N{SHAMROCK}", decimal.Decimal(2**63)),)
cursor.execute("SELECT REPEAT('x', 17000000) AS audited")
assert cursor.fetchall() == (("x" * 17000000,),)
cursor.execute("LOAD DATA LOCAL INFILE %s INTO TABLE audited (s)", (file,))
try:
    cursor.execute("KILL CONNECTION_ID() /* audited */")
    raise AssertionError("the connection is killed")
except pymysql.err.OperationalError:
    pass
try:
    connect("audited_nobody", password="wrong")
    raise AssertionError("there is no such user")
except pymysql.err.OperationalError as error:
    assert error.args[0] == 1045
connection = connect(user)
connection.ping()
connection.close()
print("done")
