# Shows the pledges of some receipts.
#
# usage: ruby show.rb http://localhost:8080 BOOK RECEIPT..
require "net/http"

base, book, *receipts = ARGV
receipts.each do |receipt|
  # Net::HTTP joins several receipts by a comma, which the service refuses (710): send one request for each.
  # Without a block of Net::HTTP.start it opens a connection for each request, as the service needs.
  address = URI("#{base}/books/#{book}/held")
  request = Net::HTTP::Get.new(address, "Pledge-Receipt" => receipt)
  reply = Net::HTTP.new(address.host, address.port).request(request)
  # Net::HTTP reports no error if a reply ends before its last byte. If it ends in its head, the body is empty.
  abort "the reply was cut" if reply.body.empty? || reply.body.bytesize < reply["Content-Length"].to_i
  puts reply.code, reply.body
end
