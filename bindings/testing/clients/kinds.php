<?php
// Prints a row with a column of each type, by text and by an execution, by PHP's mysqli.

mysqli_report(MYSQLI_REPORT_ERROR | MYSQLI_REPORT_STRICT);
$connection = new mysqli("127.0.0.1", "ann", "x", "shop", (int) $argv[1]);
$connection->set_charset("utf8mb4");

function say(mysqli_result $rows): void
{
    foreach ($rows->fetch_all() as $row) {
        echo implode("|", array_map(fn ($cell) => $cell ?? "NULL", $row)), "\n";
    }
}

say($connection->query("SELECT * FROM kinds"));
$statement = $connection->prepare("SELECT * FROM kinds WHERE id = ?");
foreach ([1, 2] as $id) {
    $statement->execute([$id]);
    say($statement->get_result());
}
