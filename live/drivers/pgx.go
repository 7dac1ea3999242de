// pgx: logs in, prepares, fails and reads typed rows.
package main

import (
	"context"
	"errors"
	"fmt"
	"os"

	"github.com/jackc/pgconn"
	"github.com/jackc/pgx/v4"
)

func run(ctx context.Context, c *pgx.Conn) error {
	for i := 0; i < 3; i++ {
		var id int32
		var name string
		if err := c.QueryRow(ctx, "SELECT id, name FROM city WHERE id = $1", 3).Scan(&id, &name); err != nil || id != 3 || name != "Rome" {
			return fmt.Errorf("row: %d %s %v", id, name, err)
		}
	}
	if err := c.Ping(ctx); err != nil {
		return err
	}
	tx, err := c.Begin(ctx)
	if err != nil {
		return err
	}
	_, err = tx.Exec(ctx, "INSERT INTO city VALUES (1, 'Oslo')")
	var why *pgconn.PgError
	if !errors.As(err, &why) || why.Code != "23505" || why.Detail != "Key (id)=(1) already exists." {
		return fmt.Errorf("error: %v", err)
	}
	if err := tx.Rollback(ctx); err != nil {
		return err
	}
	var numbers []*int32
	var texts []string
	if err := c.QueryRow(ctx, "SELECT * FROM arrays").Scan(&numbers, &texts); err != nil || len(numbers) != 3 || *numbers[2] != -3 || numbers[1] != nil || texts[1] != "b,c" {
		return fmt.Errorf("arrays: %v %v %v", numbers, texts, err)
	}
	return c.Close(ctx)
}

func main() {
	ctx := context.Background()
	c, err := pgx.Connect(ctx, os.Args[1])
	if err == nil {
		err = run(ctx, c)
	}
	if err != nil {
		fmt.Fprintln(os.Stderr, err)
		os.Exit(1)
	}
}
