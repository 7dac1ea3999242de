// node-postgres: logs in, prepares, fails and reads typed rows.
const assert = require('assert');
const { Client } = require('pg');

async function main() {
  const client = new Client({ connectionString: process.argv[2] });
  await client.connect();
  const all = await client.query('SELECT id, name FROM city');
  assert.deepStrictEqual(all.rows, [{ id: 1, name: 'Oslo' }, { id: 2, name: null }, { id: 3, name: 'Rome' }]);
  for (let i = 0; i < 3; i++) {
    const one = await client.query({ name: 'one', text: 'SELECT id, name FROM city WHERE id = $1', values: [3] });
    assert.deepStrictEqual(one.rows, [{ id: 3, name: 'Rome' }]);
  }
  await client.query('BEGIN');
  await assert.rejects(client.query("INSERT INTO city VALUES (1, 'Oslo')"), { code: '23505', detail: 'Key (id)=(1) already exists.' });
  await assert.rejects(client.query('SELECT id, name FROM city'), { code: '25P02' });
  await client.query('ROLLBACK');
  const typed = (await client.query('SELECT * FROM typed')).rows[0];
  assert.deepStrictEqual([typed.amount, typed.bytes, typed.doc], ['-12.50', Buffer.from([0, 255]), { a: 1 }]);
  assert.deepStrictEqual((await client.query('SELECT * FROM arrays')).rows, [{ numbers: [1, null, -3], texts: ['a', 'b,c'] }]);
  await client.end();
}

main().catch((why) => { console.error(why); process.exit(1); });
