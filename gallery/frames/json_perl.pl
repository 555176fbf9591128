# json_perl.pl MODULE: a module of Perl with the interface of JSON::PP.
use strict;
use warnings;
use MIME::Base64;
my $module = shift;
eval "require $module" or die;
my $parser = $module->new->utf8->allow_nonref;
$| = 1;
while (my $line = <STDIN>) {
    my $text = decode_base64($line);
    print eval { $parser->decode($text); 1 } ? "taken\n" : "refused\n";
}
