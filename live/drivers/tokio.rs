// tokio-postgres: logs in, pages, pipelines, fails and reads typed rows, in binary format.
use tokio_postgres::{error::SqlState, NoTls};

#[tokio::main(flavor = "current_thread")]
async fn main() -> Result<(), tokio_postgres::Error> {
    let words = std::env::args().nth(1).expect("where to connect");
    let (mut client, connection) = tokio_postgres::connect(&words, NoTls).await?;
    tokio::spawn(connection);
    let work = client.transaction().await?;
    let portal = work.bind("SELECT id, name FROM city", &[]).await?;
    assert_eq!(work.query_portal(&portal, 2).await?.len(), 2);
    assert_eq!(work.query_portal(&portal, 2).await?.len(), 1);
    work.commit().await?;
    let row = client.query_one("SELECT id, name FROM city WHERE id = $1", &[&3i32]).await?;
    assert_eq!(row.get::<_, &str>(1), "Rome");
    let add = client.prepare("INSERT INTO city VALUES ($1, $2)").await?;
    let (one, two) = futures_util::future::join(client.execute(&add, &[&4i32, &"Lima"]), client.execute(&add, &[&5i32, &"Bern"])).await;
    assert_eq!((one?, two?), (1, 1));
    let why = client.batch_execute("INSERT INTO city VALUES (1, 'Oslo')").await.unwrap_err();
    assert_eq!(why.code(), Some(&SqlState::UNIQUE_VIOLATION));
    let row = client.query_one("SELECT * FROM typed", &[]).await?;
    assert_eq!((row.get::<_, Vec<u8>>(6), row.get::<_, f32>(7), row.get::<_, f64>(8)), (vec![0, 255], 1.5, -0.1));
    let row = client.query_one("SELECT * FROM arrays", &[]).await?;
    assert_eq!(row.get::<_, Vec<Option<i32>>>(0), [Some(1), None, Some(-3)]);
    assert_eq!(row.get::<_, Vec<String>>(1), ["a", "b,c"]);
    Ok(())
}
