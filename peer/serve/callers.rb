# Checks of many callers, of renewers, and of clients that die.

# --- Many callers ---

check "a hundred threads" do
  threads = Array.new(100) do |number|
    Thread.new do
      20.times do |round|
        space.write([:thread, number, round])
        same([:thread, number, round], space.take([:thread, number, nil]))
      end
    end
  end
  threads.each(&:value)
  same([], space.read_all([:thread, nil, nil]))
end

check "a hundred waiting takes have a tuple each" do
  takers = Array.new(100) { Thread.new { space.take([:share, nil])[1] } }
  sleep 0.5
  writers = Array.new(10) { |tens| Thread.new { 10.times { |ones| space.write([:share, 10 * tens + ones]) } } }
  writers.each(&:value)
  same((0...100).to_a, takers.map(&:value).sort)
  same([], space.read_all([:share, nil]))
end

check "TupleSpaceProxy" do
  proxy.write([:proxy, 1])
  same([:proxy, 1], proxy.read([:proxy, nil]))
  same([[:proxy, 1]], proxy.read_all([:proxy, nil]))
  notifier = proxy.notify("take", [:proxy, nil])
  same([:proxy, 1], proxy.take([:proxy, nil]))
  same(["take", [:proxy, 1]], notifier.pop)
  notifier.cancel
  taker = Thread.new { proxy.take([:proxy, nil]) }
  sleep 0.3
  proxy.write([:proxy, 2])
  same([:proxy, 2], taker.value)
  raises(Rinda::RequestExpiredError, "request expired") { proxy.take([:proxy, nil], 0) }
end

check "fifty proxies take from one another" do
  takers = Array.new(50) { Thread.new { proxy.take([:fifty, nil])[1] } }
  50.times { |number| proxy.write([:fifty, number]) }
  same((0...50).to_a, takers.map(&:value).sort)
end

# --- Renewers ---

class Renewer
  include DRb::DRbUndumped
  attr_reader :asked

  def initialize(&life)
    @asked = 0
    @life = life
  end

  def renew
    @asked += 1
    @life.call(@asked)
  end
end

check "a SimpleRenewer keeps its tuple" do
  renewer = Rinda::SimpleRenewer.new(1)
  entry = space.write([:simple, 1], renewer)
  sleep 4
  # while the renewer is asked it isn't there, so this waits for the answer
  same([:simple, 1], space.read([:simple, nil], 5))
  entry.cancel
end

check "a renewer that answers true ends its tuple" do
  renewer = Renewer.new { |asked| asked < 3 ? 1 : true }
  space.write([:ending, 1], renewer)
  sleep 1.5
  same([[:ending, 1]], space.read_all([:ending, nil]))
  soon("it is gone") { space.read_all([:ending, nil]).empty? }
  same(3, renewer.asked)
end

check "a renewer that answers nil is asked once" do
  renewer = Renewer.new { nil }
  entry = space.write([:kept_by_nil, 1], renewer)
  sleep 2.5
  same([[[:kept_by_nil, 1]], 1], [space.read_all([:kept_by_nil, nil]), renewer.asked])
  entry.cancel
end

check "a renewer of a notifier" do
  renewer = Renewer.new { |asked| asked < 3 ? 1 : true }
  notifier = space.notify("write", [:never, nil], renewer)
  same(["close"], notifier.pop)
  same(true, renewer.asked >= 3)
end

check "a renewer that fails ends its tuple", ours: true do
  space.write([:failed, 1], Renewer.new { |asked| asked < 2 ? 1 : raise("no") })
  soon("it is gone") { space.read_all([:failed, nil]).empty? }
end

check "a renewer that has died ends its tuple", ours: true do
  other = Other.new(server, "renewer = Rinda::SimpleRenewer.new(1); SPACE.write([:orphan, 1], renewer); puts; sleep")
  same([:orphan, 1], space.read([:orphan, nil], 5))
  other.kill
  soon("it is gone") { space.read_all([:orphan, nil]).empty? }
end

# Ruby's own server asks the client for each element of such a tuple.
check "a tuple with an object that can't be dumped", ours: true do
  raises(TypeError, "tuple must be an array or a hash") { space.write([:service, Renewer.new { 1 }]) }
  service = Renewer.new { 7 }
  space.write([:service, DRbObject.new(service)])
  same(7, space.take([:service, DRbObject])[1].renew)
end

# --- Clients that die ---

check "a client that dies while a take of it waits" do
  %i[close reset].each do |ending|
    line = Line.new(server)
    line.say("take", [:dead_take, nil])
    sleep 0.2
    line.public_send(ending)
  end
  # a dead take may have one each
  3.times { |number| space.write([:dead_take, number]) }
  same(:dead_take, space.take([:dead_take, nil], 5)[0])
end

check "a proxy that dies while its take waits loses no tuple" do
  other = Other.new(server, "puts; PROXY.take([:dead_proxy, nil])")
  other.kill
  # Ruby's own server answers the writer's next take once it has noticed
  space.write([:dead_proxy, 1])
  same([:dead_proxy, 1], proxy.take([:dead_proxy, nil]))
end

check "a client that dies in each" do
  other = Other.new(server, <<~RUBY)
    notifier = SPACE.notify("write", [:dead_each, nil])
    Thread.new { notifier.each { } }
    sleep 0.3
    puts
    sleep
  RUBY
  space.write([:dead_each, 1])
  other.kill
  space.write([:dead_each, 2])
  same([[:dead_each, 1], [:dead_each, 2]], Array.new(2) { |at| space.take([:dead_each, at + 1]) })
end

check "a client that dies after a write" do
  %i[close reset].each do |ending|
    line = Line.new(server)
    line.say("write", [:dead_write, ending])
    sleep 0.2
    line.public_send(ending)
  end
  same(2, space.read_all([:dead_write, nil]).length)
end

check "a client that dies in mid-request" do
  bytes = Line.bytes("write", [:cut, 1])
  (1...bytes.bytesize).step(3) do |size|
    %i[close reset].each do |ending|
      line = Line.new(server)
      line.socket.write(bytes[0, size])
      line.public_send(ending)
    end
  end
  same([], space.read_all([:cut, nil]))
end

check "a client that doesn't read a long reply" do
  space.write([:unread, "x" * 10_000_000])
  line = Line.new(server)
  line.say("read", [:unread, nil])
  sleep 0.3
  space.write([:beside, 1])
  same([:beside, 1], space.take([:beside, nil]))
  line.reset
  same(10_000_000, space.take([:unread, nil])[1].bytesize)
end
