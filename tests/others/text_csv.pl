# Reads the file on standard input by Text::CSV, and prints its table as JSON.
use strict;
use warnings;
use JSON::PP;
use Text::CSV;

binmode STDIN;
my $csv = Text::CSV->new({binary => 1, strict => 1, eol => "\r\n"});
my @table;
while (my $record = $csv->getline(*STDIN)) {
    push @table, $record;
}
$csv->eof or die 'Text::CSV: ' . $csv->error_diag;
print encode_json(\@table);
