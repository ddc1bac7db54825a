# A service is found by its name. Takes the uri of the space.
require "drb"
require "rinda/rinda"

class Printer
  include DRb::DRbUndumped

  def print(text) = "printed #{text}"
end

uri = ARGV.fetch(0)

# The service. The space asks the renewer each two seconds, so the name goes away soon after the process does. Both
# objects are called from afar, and have to stay as long as the name does.
service = fork do
  DRb.start_service("druby://127.0.0.1:0")
  space = DRbObject.new_with_uri(uri)
  printer = Printer.new
  renewer = Rinda::SimpleRenewer.new(2)
  space.write([:name, :Printer, DRbObject.new(printer), "second floor"], renewer)
  sleep
end

DRb.start_service("druby://127.0.0.1:0")
space = DRbObject.new_with_uri(uri)
# It waits until there is one, but no longer than 20 seconds.
_, name, printer, place = space.read([:name, :Printer, DRbObject, nil], 20)
puts "#{name}, #{place}"
puts printer.print("a page")

Process.kill(:KILL, service)
Process.wait(service)
sleep 0.1 until space.read_all([:name, :Printer, nil, nil]).empty?
puts "gone"
