# What each client does for the auditing proxy's test, by DBD::MariaDB.

use strict;
use warnings;
use utf8;
use DBI;

my ($host, $port, $user, $database, $file) = @ARGV;

sub connected {
    my ($name, $password) = @_;
    return DBI->connect("DBI:MariaDB:database=$database;host=$host;port=$port", $name, $password,
        { RaiseError => 1, PrintError => 0, mariadb_server_prepare => 1,
          mariadb_local_infile => 1 });
}

sub refused {
    my ($call, $code) = @_;
    die "it isn't refused: $code" if eval { $call->(); 1 };
    die $@ if $code && $DBI::err != $code;
}

my $connection = connected($user, "");
$connection->do("INSERT INTO audited (id, s) VALUES (1, 'it''s')");
my $rows = $connection->selectall_arrayref("SELECT id, s FROM audited WHERE id = 1");
die "one row" unless @$rows == 1 && $rows->[0][1] eq "it's";
refused(sub { $connection->do("SELECT * FROM audited_not_there") }, 1146);

my $insert = $connection->prepare("INSERT INTO audited VALUES (?, ?, ?, ?, ?, ?, ?, ?, ?, ?)");
$insert->bind_param(1, 2, DBI::SQL_INTEGER);
$insert->bind_param(2, -7, DBI::SQL_BIGINT);
$insert->bind_param(3, "9223372036854775808");
$insert->bind_param(4, 1.5, DBI::SQL_DOUBLE);
$insert->bind_param(5, "maté \x{2618}");
$insert->bind_param(6, "\xff\0'", DBI::SQL_BINARY);
$insert->bind_param(7, undef, DBI::SQL_INTEGER);
$insert->bind_param(8, "2024-02-29");
$insert->bind_param(9, "2024-02-29 12:30:01.000005");
$insert->bind_param(10, "-30:01:00");
$insert->execute();
undef $insert;
my $select = $connection->prepare("SELECT s FROM audited WHERE id = ?");
for my $id (2, 9) {
    $select->bind_param(1, $id, DBI::SQL_INTEGER);
    $select->execute();
    die "the row $id" unless @{$select->fetchall_arrayref()} == ($id == 2 ? 1 : 0);
}
undef $select;

my ($big) = $connection->selectrow_array("SELECT REPEAT('x', 17000000) AS audited");
die "a big row" unless $big eq "x" x 17000000;
$connection->do("LOAD DATA LOCAL INFILE '$file' INTO TABLE audited (s)");
refused(sub { $connection->do("KILL CONNECTION_ID() /* audited */") }, 0);
refused(sub { connected("audited_nobody", "wrong") }, 1045);
connected($user, "")->disconnect();
print "done\n";
