// What each client does for the auditing proxy's test, by MariaDB's Connector/J.

import java.sql.Connection;
import java.sql.DriverManager;
import java.sql.PreparedStatement;
import java.sql.ResultSet;
import java.sql.SQLException;
import java.sql.Statement;
import java.sql.Types;

class ByJava {
    static String url;

    static Connection connect(String user, String password) throws SQLException {
        return DriverManager.getConnection(url, user, password);
    }

    static void check(boolean holds, String what) {
        if (!holds) throw new AssertionError(what);
    }

    static void refused(Statement statement, String query, int code) throws SQLException {
        try {
            statement.execute(query);
        } catch (SQLException error) {
            check(code == 0 || error.getErrorCode() == code, error.toString());
            return;
        }
        throw new AssertionError(query);
    }

    public static void main(String[] given) throws Exception {
        url = "jdbc:mariadb://" + given[0] + ":" + given[1] + "/" + given[3]
            + "?useServerPrepStmts=true&allowLocalInfile=true&useBulkStmts=true";
        Connection connection = connect(given[2], "");
        Statement statement = connection.createStatement();
        statement.execute("INSERT INTO audited (id, s) VALUES (1, 'it''s')");
        ResultSet rows = statement.executeQuery("SELECT id, s FROM audited WHERE id = 1");
        check(rows.next() && rows.getString(2).equals("it's") && !rows.next(), "one row");
        refused(statement, "SELECT * FROM audited_not_there", 1146);
        prepared(connection);
        rows = statement.executeQuery("SELECT REPEAT('x', 17000000) AS audited");
        check(rows.next() && rows.getString(1).length() == 17000000, "a big row");
        statement.execute("LOAD DATA LOCAL INFILE '" + given[4] + "' INTO TABLE audited (s)");
        refused(statement, "KILL CONNECTION_ID() /* audited */", 0);
        try {
            connect("audited_nobody", "wrong");
            throw new AssertionError("there is no such user");
        } catch (SQLException error) {
            check(error.getErrorCode() == 1045, error.toString());
        }
        connect(given[2], "").close();
        System.out.println("done");
    }

    static void prepared(Connection connection) throws SQLException {
        PreparedStatement insert = connection.prepareStatement(
            "INSERT INTO audited VALUES (?, ?, ?, ?, ?, ?, ?, ?, ?, ?)");
        insert.setInt(1, 2);
        insert.setLong(2, -7);
        insert.setBigDecimal(3, new java.math.BigDecimal("9223372036854775808"));
        insert.setDouble(4, 1.5);
        insert.setString(5, "maté \u2618");
        insert.setBytes(6, new byte[] {-1, 0, '\''});
        insert.setNull(7, Types.INTEGER);
        insert.setDate(8, java.sql.Date.valueOf("2024-02-29"));
        insert.setTimestamp(9, java.sql.Timestamp.valueOf("2024-02-29 12:30:01.000005"));
        insert.setTime(10, java.sql.Time.valueOf("12:30:01"));
        insert.executeUpdate();
        PreparedStatement select = connection.prepareStatement(
            "SELECT s FROM audited WHERE id = ?");
        for (int id : new int[] {2, 9}) {
            select.setInt(1, id);
            check(select.executeQuery().next() == (id == 2), "the row " + id);
        }
        PreparedStatement bulk = connection.prepareStatement(
            "INSERT INTO audited (id, s) VALUES (?, ?)");
        for (int id : new int[] {11, 12, 13}) {
            bulk.setInt(1, id);
            bulk.setString(2, id == 12 ? null : "bulk");
            bulk.addBatch();
        }
        bulk.executeBatch();
    }
}
