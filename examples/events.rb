# Whoever wants to hear what happens in a space has a notifier. Takes the uri of the space.
require "drb"
require "rinda/rinda"

DRb.start_service("druby://127.0.0.1:0")
space = DRbObject.new_with_uri(ARGV.fetch(0))

writes = space.notify("write", [:degrees, String, Integer])
all = space.notify(nil, [:degrees, "cellar", nil])

space.write([:degrees, "attic", 31])
space.write([:degrees, "cellar", 12])
space.write([:degrees, "garden", nil])
space.take([:degrees, "cellar", nil])

# One event after the other; pop waits for the next one.
2.times { p writes.pop }

# All of them, until the notifier is canceled.
hearing = Thread.new do
  all.each { |event, tuple| puts "#{event} #{tuple}" if tuple }
end
space.write([:degrees, "cellar", 13])
all.cancel
hearing.join
