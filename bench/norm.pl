# Reads the GEDCOM file of standard input by libgedcom-perl and writes it to standard output: for
# bench/norm.py, which measures it. The library reads and writes files by name alone.
use strict;
use warnings;
use File::Copy qw(copy);
use File::Temp qw(tempfile);
use Gedcom;

my ($in, $given) = tempfile(UNLINK => 1);
my (undef, $written) = tempfile(UNLINK => 1);
copy(\*STDIN, $in) && close $in or die "norm.pl: $!\n";
my $gedcom = Gedcom->new(gedcom_file => $given, grammar_version => '5.5.1');
$gedcom->write($written);
copy($written, \*STDOUT) or die "norm.pl: $!\n";
