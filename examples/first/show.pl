# Shows the pledges of some receipts.
#
# usage: perl show.pl http://localhost:8080 BOOK RECEIPT..
use strict;
use warnings;
use HTTP::Tiny;

my ($base, $book, @receipts) = @ARGV;
# The service answers one connection at a time, so each request has a connection of its own.
my $client = HTTP::Tiny->new(keep_alive => 0);
for my $receipt (@receipts) {
    my $reply = $client->get("$base/books/$book/held", {headers => {'Pledge-Receipt' => $receipt}});
    print "$reply->{status}\n$reply->{content}";
}
