# Checks of the methods of the space, of entries and of notifiers.

# --- The methods of the space ---

check "the first line is the uri, with the port that the system gave" do
  same(true, server.uri.match?(%r{\Adruby://127\.0\.0\.1:[1-9]\d*\z}), server.uri)
end

check "write, read, read_all, take" do
  space.write([:plain, 1, "one"])
  space.write([:plain, 2, "two"])
  same([:plain, 1, "one"], space.read([:plain, 1, nil]))
  same([[:plain, 1, "one"], [:plain, 2, "two"]], space.read_all([:plain, nil, nil]).sort)
  same([:plain, 2, "two"], space.take([:plain, nil, "two"]))
  same([:plain, 1, "one"], space.take([:plain, nil, nil]))
  same([], space.read_all([:plain, nil, nil]))
end

check "a name as the host" do
  with_server(uri: "druby://localhost:0") do |one|
    same(true, one.uri.match?(%r{\Adruby://localhost:[1-9]\d*\z}), one.uri)
    entry = one.space.write([:named, 1])
    same(one.uri, entry.__drburi)
    same([:named, 1], one.space.take([:named, nil]))
  end
end

Pair = Struct.new(:left, :right)

check "values of every form" do
  values = ["text", "é", "bytes\xff".b, "", :sym, :"a b", 0, -1, 122, 123, 256, 2**30, 2**62, 2**100, -2**100,
            nil, true, false, [], [1, [2, [3]]], {}, { "k" => :v, 1 => [2] }, 1..5, ("a".."c"), Integer, Comparable,
            Time.at(1_700_000_000, 5, :nsec), Rational(1, 3)]
  # Ruby's own server would have to know the class
  values << Pair.new(1, "r") if OURS
  space.write([:forms, *values])
  same([:forms, *values], space.take([:forms, *values.map { nil }]))
end

check "hashes as tuples" do
  space.write({ "kind" => "hash", "size" => 3 })
  same({ "kind" => "hash", "size" => 3 }, space.take({ "kind" => "hash", "size" => Integer }))
  raises(Rinda::InvalidHashTupleKey, "hash tuple keys must be texts") { space.write({ kind: 1 }) }
end

check "classes and ranges in templates" do
  space.write([:kinds, 5, "m", :s])
  same([:kinds, 5, "m", :s], space.read([:kinds, Integer, String, Symbol]))
  same([:kinds, 5, "m", :s], space.read([:kinds, 1..5, "a".."z", nil]))
  same([], space.read_all([:kinds, 1...5, nil, nil]))
  same([], space.read_all([:kinds, String, nil, nil]))
  space.take([:kinds, Numeric, Comparable, Object])
end

check "a long text comes back as it went" do
  text = "0123456789abcdef" * 65_536
  space.write([:long, text])
  same(true, space.take([:long, nil])[1] == text)
end

check "a take waits for its tuple" do
  taker = Thread.new { space.take([:later, nil]) }
  sleep 0.3
  same(true, taker.alive?)
  space.write([:later, 7])
  same([:later, 7], taker.value)
end

check "a read waits for its tuple, and leaves it" do
  readers = Array.new(5) { Thread.new { space.read([:later_read, nil]) } }
  sleep 0.3
  space.write([:later_read, 7])
  readers.each { |reader| same([:later_read, 7], reader.value) }
  space.take([:later_read, 7])
end

check "a take or read without time is expired" do
  raises(Rinda::RequestExpiredError, "request expired") { space.take([:never, nil], 0) }
  raises(Rinda::RequestExpiredError, "request expired") { space.read([:never, nil], 0) }
end

check "a take or read with a second waits for one" do
  took = seconds { raises(Rinda::RequestExpiredError, "request expired") { space.take([:never, nil], 1) } }
  same(true, took.between?(0.9, 5), "take took #{took.round(2)} s:")
  took = seconds { raises(Rinda::RequestExpiredError, "request expired") { space.read([:never, nil], 1) } }
  same(true, took.between?(0.9, 5), "read took #{took.round(2)} s:")
end

check "a waiting take that is canceled" do
  requests = Queue.new
  taker = Thread.new do
    raises(Rinda::RequestCanceledError, "request canceled") do
      space.take([:never, nil]) { |request| requests << request }
    end
  end
  request = requests.pop
  sleep 0.3
  request.cancel
  taker.value
end

check "a tuple with a life of a second" do
  heard = space.notify("delete", [:brief, nil])
  space.write([:brief, 1], 1)
  same([:brief, 1], space.read([:brief, nil]))
  same(["delete", [:brief, 1]], heard.pop)
  same([], space.read_all([:brief, nil]))
  heard.cancel
end

check "a tuple whose life is over at once" do
  heard = space.notify(nil, [:gone, nil])
  space.write([:gone, 1], 0)
  same([], space.read_all([:gone, nil]))
  same([["write", [:gone, 1]], ["delete", [:gone, 1]]], [heard.pop, heard.pop])
  heard.cancel
end

check "move hands the tuple to a port" do
  port = []
  space.write([:moved, 1])
  # a push answers the array itself, which comes back as a copy
  same(nil, space.move(DRbObject.new(port), [:moved, nil]))
  same([[:moved, 1]], port)
end

check "a move whose port fails leaves the tuple" do
  port = Object.new
  def port.push(_value) = raise(IndexError, "full")
  space.write([:kept, 1])
  raises(IndexError, "full") { space.move(DRbObject.new(port), [:kept, nil]) }
  same([:kept, 1], space.take([:kept, nil], 0))
end

# --- Entries ---

check "an entry: value, alive?, expired?, canceled?, renew" do
  entry = space.write([:entry, 1], 60)
  same([[:entry, 1], true, false, false], [entry.value, entry.alive?, entry.expired?, entry.canceled?])
  entry.renew(0)
  same([false, true, false], [entry.alive?, entry.expired?, entry.canceled?])
  same([], space.read_all([:entry, nil]))
end

check "an entry that is canceled" do
  entry = space.write([:undone, 1])
  entry.cancel
  same([], space.read_all([:undone, nil]))
  same([true, false, false], [entry.canceled?, entry.expired?, entry.alive?]) if OURS
end

check "an entry that was taken is not alive", ours: true do
  entry = space.write([:taken, 1])
  space.take([:taken, nil])
  same([false, false, false, nil], [entry.alive?, entry.expired?, entry.canceled?, entry.value])
end

check "an entry is renewed for ever" do
  entry = space.write([:renewed, 1], 1)
  entry.renew(nil)
  sleep 2.5
  same([:renewed, 1], space.take([:renewed, nil], 0))
end

# --- Notifiers ---

check "a notifier: pop" do
  notifier = space.notify("write", [:heard, Integer])
  same(true, notifier.alive?)
  space.write([:heard, "no"])
  space.write([:heard, 1])
  space.take([:heard, 1])
  space.write([:heard, 2])
  same([["write", [:heard, 1]], ["write", [:heard, 2]]], [notifier.pop, notifier.pop])
  waiting = Thread.new { notifier.pop }
  sleep 0.2
  space.write([:heard, 3])
  same(["write", [:heard, 3]], waiting.value)
  notifier.cancel
  same(false, notifier.alive?) if OURS
end

check "a notifier of all events: each" do
  notifier = space.notify(nil, [:all, nil])
  heard = []
  hearing = Thread.new { notifier.each { |event, tuple| heard << [event, tuple] } }
  space.write([:all, 1])
  space.take([:all, nil])
  space.write([:all, 2]).cancel
  # in Ruby's own server the keeper raises the delete
  soon("three events or more") { heard.length >= (OURS ? 4 : 3) }
  notifier.cancel
  hearing.join
  wanted = [["write", [:all, 1]], ["take", [:all, 1]], ["write", [:all, 2]], ["delete", [:all, 2]], ["close", nil]]
  same(wanted - (OURS ? [] : wanted[3..4]), OURS ? heard : heard.first(3))
end

check "a canceled notifier closes once" do
  notifier = space.notify("write", [:closed, nil])
  popping = Thread.new { notifier.pop }
  sleep 0.2
  notifier.cancel
  same(["close"], popping.value)
  raises(Rinda::RequestExpiredError, "request expired") { notifier.pop } if OURS
end

check "a notifier with a second closes after it" do
  notifier = space.notify("write", [:brief_notifier, nil], 1)
  space.write([:brief_notifier, 1], 1)
  same([["write", [:brief_notifier, 1]], ["close"]], [notifier.pop, notifier.pop])
end

check "a block that fails ends each, and the notifier" do
  notifier = space.notify("write", [:failing, nil])
  space.write([:failing, 1], 5)
  count = 0
  begin
    notifier.each do
      count += 1
      raise "no more"
    end
  rescue RuntimeError
    # Ruby's own server answers nil
  end
  same(1, count)
  same(false, notifier.alive?) if OURS
end
