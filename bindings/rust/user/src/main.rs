//! A program on tokio-postgres, which compiles over this package by `[patch.crates-io]`.
use postgres_types::{FromSql, ToSql};
use tokio_postgres::{Client, Error, NoTls};

#[allow(dead_code)]
async fn rows<T: for<'a> FromSql<'a>>(client: &Client, given: &(dyn ToSql + Sync)) -> Result<Vec<T>, Error> {
    let rows = client.query("SELECT $1", &[given]).await?;
    rows.iter().map(|row| row.try_get(0)).collect()
}

fn main() {
    let config: tokio_postgres::Config = "host=localhost user=app".parse().expect("a configuration");
    drop(config.connect(NoTls));
}
