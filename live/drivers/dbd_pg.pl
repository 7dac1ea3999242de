# DBD::Pg: logs in, prepares, fails and reads typed rows.
use strict;
use warnings;
use DBI;

my $db = DBI->connect($ARGV[0], 'user', 'pencil', {RaiseError => 1, PrintError => 0});
my $rows = $db->selectall_arrayref('SELECT id, name FROM city');
die 'rows' unless @$rows == 3 && $rows->[0][1] eq 'Oslo' && !defined $rows->[1][1];
my $one = $db->prepare('SELECT id, name FROM city WHERE id = $1');
for (1 .. 3) {
    $one->execute(3);
    my ($id, $name) = $one->fetchrow_array;
    die 'row' unless $id == 3 && $name eq 'Rome' && !$one->fetchrow_array;
}
die 'ping' unless $db->ping;
$db->begin_work;
eval { $db->do(q{INSERT INTO city VALUES (1, 'Oslo')}); 1 } and die 'no error';
die 'state' unless $db->state eq '23505';
eval { $db->do('SELECT id, name FROM city'); 1 } and die 'no error';
die 'failed' unless $db->state eq '25P02';
$db->rollback;
my $typed = $db->selectrow_arrayref('SELECT * FROM typed');
die 'typed' unless $typed->[0] eq '-12.50' && $typed->[3] eq '2026-11-26' && $typed->[6] eq "\0\xff";
my ($numbers, $texts) = $db->selectrow_array('SELECT * FROM arrays');
die 'arrays' unless $numbers->[0] == 1 && !defined $numbers->[1] && $texts->[1] eq 'b,c';
$db->disconnect;
