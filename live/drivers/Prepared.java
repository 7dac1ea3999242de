// PgJDBC: runs a prepared statement seven times. From the fifth on the server keeps it; its columns are those of the portal that was described then, and from
// the sixth on its rows come in binary format.
import java.sql.*;

public class Prepared {
    public static void main(String[] words) throws Exception {
        try (Connection c = DriverManager.getConnection(words[0], words[1], words[2]);
                PreparedStatement one = c.prepareStatement("SELECT ?::int4 AS v")) {
            for (int run = 0; run < 7; run++) {
                one.setInt(1, 250 + run);
                ResultSet row = one.executeQuery();
                row.next();
                if (row.getInt(1) != 250 + run) throw new AssertionError(row.getInt(1));
            }
        }
    }
}
