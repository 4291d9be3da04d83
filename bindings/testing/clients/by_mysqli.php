<?php
// What each client does for the auditing proxy's test, by PHP's mysqli.

[, $host, $port, $user, $database, $file] = $argv;
mysqli_report(MYSQLI_REPORT_ERROR | MYSQLI_REPORT_STRICT);

function check(bool $holds, string $what): void
{
    if (!$holds) {
        throw new Exception($what);
    }
}

function connect(string $user, string $password = ""): mysqli
{
    global $host, $port, $database;
    $connection = mysqli_init();
    $connection->options(MYSQLI_OPT_LOCAL_INFILE, true);
    $connection->real_connect($host, $user, $password, $database, (int) $port);
    return $connection;
}

function refused(callable $call, int $code): void
{
    try {
        $call();
    } catch (mysqli_sql_exception $error) {
        check($code === 0 || $error->getCode() === $code, (string) $error);
        return;
    }
    throw new Exception("it isn't refused: $code");
}

$connection = connect($user);
$connection->set_charset("utf8mb4");
$connection->query("INSERT INTO audited (id, s) VALUES (1, 'it''s')");
$rows = $connection->query("SELECT id, s FROM audited WHERE id = 1")->fetch_all();
check($rows == [["1", "it's"]], "one row");
refused(fn () => $connection->query("SELECT * FROM audited_not_there"), 1146);

$insert = $connection->prepare("INSERT INTO audited VALUES (?, ?, ?, ?, ?, ?, ?, ?, ?, ?)");
$values = [2, -7, "9223372036854775808", 1.5, "maté \u{2618}", "\xff\0'", null, "2024-02-29",
    "2024-02-29 12:30:01.000005", "-30:01:00"];
$insert->bind_param("iisdssisss", ...$values);
$insert->execute();
$insert->close();
$select = $connection->prepare("SELECT s FROM audited WHERE id = ?");
foreach ([2, 9] as $id) {
    $select->bind_param("i", $id);
    $select->execute();
    check(count($select->get_result()->fetch_all()) === ($id === 2 ? 1 : 0), "the row $id");
}
$select->close();
$long = $connection->prepare("INSERT INTO audited (id, s) VALUES (3, ?)");
$nothing = null;
$long->bind_param("b", $nothing);
$long->send_long_data(0, "long ");
$long->send_long_data(0, "data");
$long->execute();
$long->close();

$row = $connection->query("SELECT REPEAT('x', 17000000) AS audited")->fetch_row();
check($row[0] === str_repeat("x", 17000000), "a big row");
$connection->query("LOAD DATA LOCAL INFILE '$file' INTO TABLE audited (s)");
refused(fn () => $connection->query("KILL CONNECTION_ID() /* audited */"), 0);
refused(fn () => connect("audited_nobody", "wrong"), 1045);
$connection = connect($user);
$connection->change_user($user, "", $database);
$connection->close();
echo "done\n";
