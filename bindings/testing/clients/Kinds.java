// Prints a row with a column of each type, by text and by an execution, by MariaDB's Connector/J.

import java.sql.Connection;
import java.sql.DriverManager;
import java.sql.PreparedStatement;
import java.sql.ResultSet;
import java.sql.SQLException;

public class Kinds {
    static void say(ResultSet rows) throws SQLException {
        int width = rows.getMetaData().getColumnCount();
        while (rows.next()) {
            String[] said = new String[width];
            for (int i = 0; i < width; i++)
                said[i] = rows.getString(i + 1) == null ? "NULL" : rows.getString(i + 1);
            System.out.println(String.join("|", said));
        }
    }

    public static void main(String[] words) throws SQLException {
        String url = "jdbc:mariadb://127.0.0.1:" + words[0]
            + "/shop?user=ann&password=x&useServerPrepStmts=true&yearIsDateType=false";
        try (Connection connection = DriverManager.getConnection(url)) {
            say(connection.createStatement().executeQuery("SELECT * FROM kinds"));
            PreparedStatement statement =
                connection.prepareStatement("SELECT * FROM kinds WHERE id = ?");
            for (int id = 1; id <= 2; id++) {
                statement.setInt(1, id);
                say(statement.executeQuery());
            }
        }
    }
}
