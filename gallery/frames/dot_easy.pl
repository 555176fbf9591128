# Graph::Easy's parser of DOT.
use strict;
use warnings;
use MIME::Base64;
use Graph::Easy::Parser::Graphviz;
$| = 1;
while (my $line = <STDIN>) {
    my $parser = Graph::Easy::Parser::Graphviz->new(fatal_errors => 0);
    $parser->no_fatal_errors(1);
    my $graph = eval { local $SIG{__WARN__} = sub { }; $parser->from_text(decode_base64($line)) };
    print $graph && !$parser->error ? "taken\n" : "refused\n";
}
