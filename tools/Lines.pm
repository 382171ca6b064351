# For tools/mender and tools/explainer: the lines of standard input, one held at a time, a program that answers them, and what is printed of both. A line is answered before the next is looked at, so that no
# write waits for another.
package Lines;
use strict;
use warnings;
use Exporter 'import';
use IPC::Open2;
our @EXPORT = qw(asks fail answer_to last_answer_to each_line);

my ($self, $program, $id);

# Starts a program that is to be asked, for a command.
sub asks {
    ($self, $program) = @_;
    $id = open2(*ANSWERS, *QUESTIONS, 'sh', '-c', 'exec "$0"', $program);
    binmode $_ for *STDIN, *STDOUT, *ANSWERS, *QUESTIONS;
    # a signal that is not ignored ends this program, and so the other, which has no more to read; the status is 128 and its number, as tools/program has it
    my %signals = (HUP => 1, INT => 2, QUIT => 3, TERM => 15);
    for my $name (grep { ($SIG{$_} // '') ne 'IGNORE' } keys %signals) {
        $SIG{$name} = sub { exit 128 + $signals{$name} };
    }
}

# Ends, and says why.
sub fail {
    print STDERR "$self: $_[0]\n";
    exit 1;
}

# Writes all of a text, and tells whether that was possible.
sub put {
    my ($to, $text) = @_;
    my $at = 0;
    while ($at < length $text) {
        $at += syswrite($to, $text, length($text) - $at, $at) // return 0;
    }
    return 1;
}

# The program's answer to a line.
sub answer_to {
    ask("$_[0]\n");
    return answer();
}

# Its answer to a line that no line feed ends.
sub last_answer_to {
    ask($_[0]);
    close QUESTIONS;
    return answer();
}

sub ask {
    local $SIG{PIPE} = 'IGNORE';
    put(*QUESTIONS, $_[0]) or fail("$program takes no jobs: $!");
}

sub answer {
    my $answer = <ANSWERS> // "";
    $answer =~ s/\n\z// or fail("$program ended without an answer");
    return $answer;
}

# Prints what a function makes of each line: of its bytes, of which at most so many are held, of how many there are, and of whether a line feed ends it.
sub each_line {
    my ($what, $most, $printed) = @_;
    my ($held, $size) = ('', 0);
    my $take = sub {
        put(*STDOUT, $printed->($held, $size, @_)) or fail("the output cannot be written: $!");
        ($held, $size) = ('', 0);
    };
    while (sysread(STDIN, my $block, 65536) // fail("$what cannot be read: $!")) {
        my @parts = split /\n/, $block, -1;
        while (@parts) {
            my $part = shift @parts;
            $held .= substr $part, 0, $most - length $held;
            $size += length $part;
            $take->(1) if @parts;
        }
    }
    $take->(0) if $size > 0;
    close QUESTIONS;
    waitpid $id, 0;
    fail("$program ended with status " . ($? >> 8 || 128 + ($? & 127))) if $? != 0;
}

1;
