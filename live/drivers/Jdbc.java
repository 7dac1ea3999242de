// PgJDBC: logs in, pages, batches, fails and reads typed rows.
import java.math.BigDecimal;
import java.sql.*;
import java.util.Properties;

public class Jdbc {
    static void same(Object came, Object wanted) {
        if (!wanted.equals(came)) throw new AssertionError(came + " for " + wanted);
    }

    public static void main(String[] words) throws Exception {
        Properties login = new Properties();
        login.setProperty("user", words[1]);
        login.setProperty("password", words[2]);
        try (Connection c = DriverManager.getConnection(words[0], login)) {
            c.setAutoCommit(false);
            try (PreparedStatement all = c.prepareStatement("SELECT id, name FROM city")) {
                all.setFetchSize(2);
                ResultSet rows = all.executeQuery();
                int sum = 0;
                while (rows.next()) sum += rows.getInt(1);
                same(sum, 6);
            }
            try (PreparedStatement add = c.prepareStatement("INSERT INTO city VALUES (?, ?)")) {
                for (int id = 4; id < 7; id++) {
                    add.setInt(1, id);
                    add.setString(2, "city " + id);
                    add.addBatch();
                }
                same(add.executeBatch().length, 3);
            }
            c.commit();
            try (Statement one = c.createStatement()) {
                one.execute("INSERT INTO city VALUES (1, 'Oslo')");
                throw new AssertionError("no error");
            } catch (SQLException why) {
                same(why.getSQLState(), "23505");
            }
            c.rollback();
            try (PreparedStatement typed = c.prepareStatement("SELECT * FROM typed")) {
                for (int run = 0; run < 8; run++) {
                    ResultSet row = typed.executeQuery();
                    row.next();
                    same(row.getBigDecimal(1), new BigDecimal("-12.50"));
                    same(row.getTimestamp(2).toInstant().toString(), "2026-11-26T10:20:30.500Z");
                    same(row.getDate(4).toString(), "2026-11-26");
                    same((int) row.getBytes(7)[1], -1);
                    same(row.getDouble(9), -0.1);
                }
            }
            try (Statement arrays = c.createStatement()) {
                ResultSet row = arrays.executeQuery("SELECT * FROM arrays");
                row.next();
                same(((Integer[]) row.getArray(1).getArray())[2], -3);
            }
            c.commit();
        }
    }
}
