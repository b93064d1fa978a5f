# A ready client, made from the description by OpenAPI::Client, works through a pledge from the book to the redemption.
#
# usage: perl whole_pledge.pl DESCRIPTION PORT OPERATORS_KEY
use strict;
use warnings;
use OpenAPI::Client;

my ($description, $port, $operator) = @ARGV;
my $broker = '22222222-2222-2222-2222-222222222222';
my $client = OpenAPI::Client->new($description, base_url => "http://127.0.0.1:$port");

# The service answers one connection at a time, so each request has one of its own. A key is no parameter of an
# operation, so it is added to each request here.
my ($field, $value);
$client->ua->max_connections(0);
$client->ua->on(start => sub {
    my ($ua, $tx) = @_;
    $tx->req->headers->header($field => $value);
});

sub as_caller { ($field, $value) = @_ }

sub done {
    my ($step, $tx) = @_;
    die "$step: " . $tx->res->code . ' ' . $tx->res->body . "\n" if !$tx->res->is_success;
    print "$step: ", $tx->res->body =~ s/\n/|/gr, "\n";
    return $tx->res->json;
}

sub refused {
    my ($step, $tx, $code) = @_;
    my $found = ($tx->res->json // {})->{code} // '';
    die "$step: $found in place of $code\n" if $found ne $code;
    print "$step: $code\n";
}

as_caller('Pledge-Key', $operator);
done('makeBook', $client->makeBook({book => 7, body => {capacity => 2, key => $broker, name => 'Möbel & Söhne'}}));
as_caller('Pledge-Key', $broker);
done('addTerms', $client->addTerms({book => 7, body => {version => 1, rate => 2667, keep_before => 0, keep_after => 0}}));
my $taken = done('takePledge', $client->takePledge({book => 7, body => {
    ref => 'A1', article => 'Gold ring', kind => 'fixed', pence => 10000, five_days => Mojo::JSON->false,
}}));
done('showPledge', $client->showPledge({book => 7, number => $taken->{number}}));
done('hold', $client->hold({book => 7, number => 1}));
as_caller('Pledge-Receipt', $taken->{receipt});
done('showHeld', $client->showHeld({book => 7}));
done('repayHeld', $client->repayHeld({book => 7, body => {seq => 1, pence => 1000}}));
refused('redeem while on hold', $client->redeem({book => 7, body => {paid => 9000}}), 303);
as_caller('Pledge-Key', $broker);
done('release', $client->release({book => 7, number => 1}));
as_caller('Pledge-Receipt', $taken->{receipt});
refused('redeem for too little', $client->redeem({book => 7, body => {paid => 1}}), 310);
done('redeem', $client->redeem({book => 7, body => {paid => 9000}}));
refused('showHeld afterwards', $client->showHeld({book => 7}), 402);
as_caller('Pledge-Key', $broker);
done('exportBook', $client->exportBook({book => 7}));
