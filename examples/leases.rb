# A tuple that goes away unless its lease is renewed. Takes the uri of the space.
require "drb"
require "rinda/rinda"

space = DRbObject.new_with_uri(ARGV.fetch(0))

# For two seconds, and then for two more each time.
entry = space.write([:lock, "door"], 2)
3.times do
  sleep 1
  entry.renew(2)
end
puts "after three seconds: #{space.read_all([:lock, nil])}"

# Nobody renews it any more.
sleep 4
puts "expired: #{entry.expired?}"
puts "after seven seconds: #{space.read_all([:lock, nil])}"

# Whoever doesn't want to wait for ever says for how many seconds.
begin
  space.take([:lock, nil], 1)
rescue Rinda::RequestExpiredError
  puts "no lock to take"
end
