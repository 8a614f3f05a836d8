# What Gedcom.pm keeps of a GEDCOM file: perl gedcom_values.pl FILE
#
# Each line that the grammar of 5.5.1 has stands on standard output as in the file, with all its lines; a line that
# it has not, and what is below it, does not. Each complaint of reading and of validating stands on standard error.
use strict;
use warnings;
use Gedcom;

local $SIG{__WARN__} = sub { print STDERR "$_[0]" };
my $file = Gedcom->new(gedcom_file => $ARGV[0], grammar_version => "5.5.1") or die "Gedcom.pm has not read the file\n";
$file->validate;
known($_, 0) for @{$file->{record}->_items};

sub known {
    my ($line, $level) = @_;
    return unless exists $line->{grammar};
    my $value = ref $line->{value} ? $line->{value}{xref} : $line->{value};
    $value = "\@$value\@" if defined $value && $line->{pointer};
    my @words = ($level, defined $line->{xref} ? "\@$line->{xref}\@" : (), $line->{tag});
    print join(" ", @words, defined $value && length $value ? $value : ()), "\n";
    known($_, $level + 1) for @{$line->_items};
}
