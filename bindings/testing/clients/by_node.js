// What each client does for the auditing proxy's test, by node-mysql, which sends texts alone.

const mysql = require("mysql");
const assert = require("assert");
const fs = require("fs");

const [host, port, user, database, file] = process.argv.slice(2);

const connect = (name, password) => mysql.createConnection({
    host, port: Number(port), user: name, password, database, charset: "utf8mb4",
    dateStrings: true, localInfile: true, timezone: "Z",
});

const ask = (connection, query, values) => new Promise((resolve, reject) => {
    connection.query(query, values, (error, rows) => error ? reject(error) : resolve(rows));
});

const refused = async (asked, code) => {
    const error = await asked.then(() => null, (error) => error);
    assert(error && (!code || error.errno === code), String(error));
};

const main = async () => {
    const connection = connect(user, "");
    connection.on("error", () => {}); // it is killed below
    await ask(connection, "INSERT INTO audited (id, s) VALUES (?, ?)", [1, "it's"]);
    const [row] = await ask(connection, "SELECT id, s FROM audited WHERE id = 1");
    assert(row.id === 1 && row.s === "it's");
    await refused(ask(connection, "SELECT * FROM audited_not_there"), 1146);
    await ask(connection, "INSERT INTO audited VALUES (?, ?, ?, ?, ?, ?, ?, ?, ?, ?)",
        [2, -7, "9223372036854775808", 1.5, "maté \u2618", Buffer.from([255, 0, 39]), null,
            "2024-02-29", new Date("2024-02-29T12:30:01Z"), "-30:01:00"]);
    const [big] = await ask(connection, "SELECT REPEAT('x', 17000000) AS audited");
    assert(big.audited === "x".repeat(17000000));
    await ask(connection, "LOAD DATA LOCAL INFILE ? INTO TABLE audited (s)", [file]);
    await refused(ask(connection, "KILL CONNECTION_ID() /* audited */"));
    await refused(ask(connect("audited_nobody", "wrong"), "SELECT 1"), 1045);
    const other = connect(user, "");
    await new Promise((resolve, reject) => {
        other.changeUser({ user }, (error) => error ? reject(error) : resolve());
    });
    await new Promise((resolve) => other.end(resolve));
    console.log("done");
};

main();
