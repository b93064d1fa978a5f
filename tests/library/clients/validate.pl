# Validates an OpenAPI description by JSON::Validator, and compiles each pattern of standard input.
#
# usage: perl validate.pl DESCRIPTION <PATTERNS
use strict;
use warnings;
use JSON::Validator;

my @errors = @{JSON::Validator->new->schema($ARGV[0])->schema->errors};
print "$_\n" for @errors;
while (my $pattern = <STDIN>) {
    chomp $pattern;
    eval { qr/$pattern/; 1 } or push @errors, print "$pattern: $@";
}
exit(@errors ? 1 : 0);
