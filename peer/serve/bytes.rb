# Checks of bytes on connections, of refusals, and of many connections.

# --- Bytes ---

check "bytes in pieces" do
  line = Line.new(server)
  [["write", [:pieces, 1]], ["take", [:pieces, nil]]].each do |name, tuple|
    Line.bytes(name, tuple).each_byte do |byte|
      line.socket.write(byte.chr)
      sleep 0.0005
    end
    result = line.hear
    same([:pieces, 1], result) if name == "take"
  end
  line.close
end

check "many requests in one piece" do
  line = Line.new(server)
  line.socket.write((0...100).map { |number| Line.bytes("write", [:piped, number]) }.join)
  100.times { same(DRb::DRbObject, line.hear.class) }
  line.close
  same(100, space.read_all([:piped, nil]).length)
end

check "a client that ends its sending has its reply" do
  line = Line.new(server)
  line.say("write", [:half, 1])
  line.socket.close_write
  line.hear
  same("", line.socket.read)
  line.close
  space.take([:half, 1])
end

check "a connection stays for the next request" do
  line = Line.new(server)
  500.times do |number|
    line.ask("write", [:stays, number])
    same([:stays, number], line.ask("take", [:stays, nil]))
  end
  line.close
end

# --- Refusals, and what differs from Ruby's own server ---

class Label < String
end

cyclic = []
cyclic << cyclic
{
  "a float" => 1.5,
  "infinity" => Float::INFINITY,
  "a regular expression" => /a/,
  "a list that contains itself" => cyclic,
  "a number of more than 128 bits" => 2**130,
  "a list that is too deep" => (1..200).reduce(1) { |inner, _| [inner] },
  "a text that is in ISO-8859-1" => "é".encode("ISO-8859-1"),
  "an object of a subclass of String" => Label.new("a")
}.each do |what, value|
  check "refused: #{what}", ours: true do
    begin
      got = space.write([:refused, value])
      raise Differs, "wanted ArgumentError, got #{got.inspect}"
    rescue ArgumentError => e
      same(true, e.message.match?(/\Amarshal refusal \d+ at \d+\z/), e.message)
    end
    same([], space.read_all([:refused, nil]))
  end
end

check "a hash without braces" do
  if OURS
    raises(ArgumentError) { space.write("without" => "braces") }
  else
    space.write("without" => "braces")
  end
  space.write({ "without" => "braces" })
  same({ "without" => "braces" }, space.take({ "without" => nil }))
end

check "which of several tuples is taken" do
  4.times { |number| space.write([:order, number]) }
  got = Array.new(4) { space.take([:order, nil])[1] }
  same([0, 1, 2, 3], OURS ? got : got.reverse)
end

check "p asks an entry nothing, and puts does" do
  entry = space.write([:shown, 1])
  entry.inspect
  raises(NoMethodError, "no method respond_to?") { [entry].flatten } if OURS
  raises(NoMethodError, "no method respond_to?") { _first, _second = entry } if OURS
  space.take([:shown, 1])
end

check "a remote object in a template" do
  service = Renewer.new { 1 }
  space.write([:remote, DRbObject.new(service)])
  same(1, space.read_all([:remote, DRbObject.new(service)]).length)
  same(0, space.read_all([:remote, DRbObject.new(Renewer.new { 2 })]).length)
  same(1, space.read_all([:remote, DRbObject]).length)
  space.take([:remote, nil])
end

check "a refusal isn't overtaken by a reset", ours: true do
  100.times do
    begin
      space.write([1.5], "x" * 200_000)
      raise Differs, "a float was taken"
    rescue ArgumentError
      # as it ought to be
    end
  end
end

# Ruby's own server neither answers it nor closes the connection.
check "a packet that is too large", ours: true do
  line = Line.new(server)
  line.socket.write([0x7fffffff].pack("N"))
  got = line.hear
  same([DRb::DRbConnError, "too large packet 2147483647"], [got.class, got.message])
  same("", line.socket.read)
  line.close
end

check "bytes that are no request" do
  ["GET / HTTP/1.1\r\n\r\n", "\0" * 400, "\xff" * 400, [3].pack("N") + "xyz"].each do |bytes|
    line = Line.new(server)
    line.socket.write(bytes)
    line.socket.close_write
    begin
      line.socket.read
    rescue Errno::ECONNRESET
      # Ruby's own server doesn't read the rest
      raise if OURS
    end
    line.close
  end
  space.write([:still, 1])
  space.take([:still, nil])
end

check "failures of calls" do
  raises(NoMethodError, "no method frobnicate") { space.frobnicate }
  raises(ArgumentError, "wrong number of arguments (given 0, expected 1..2)") { space.write }
  # Ruby's own server closes the connection without an answer
  raises(OURS ? SecurityError : DRb::DRbConnError, "insecure method __send__") do
    space.__send__(:method_missing, :__send__, "exit")
  end
  # Ruby's own server makes a tuple of the bits of the number
  raises(TypeError, "tuple must be an array or a hash") { space.write(1) } if OURS
  raises(RangeError, "99999992 is not id value") { DRbObject.new_with(server.uri, 99_999_992).value }
  space.write([:after, 1])
  same([:after, 1], space.take([:after, nil]))
end

check "an object of another kind", ours: true do
  entry = space.write([:other_kind, 1])
  raises(NoMethodError, "no method pop") { entry.pop }
  space.take([:other_kind, 1])
end

# --- Many connections ---

check "200 idle connections beside 8 busy ones" do
  idle = Array.new(200) do |number|
    line = Line.new(server)
    line.ask("read_all", [:idle, number])
    line
  end
  busy = Array.new(8) do |number|
    Thread.new do
      line = Line.new(server)
      300.times do |round|
        line.ask("write", [:busy, number, round])
        same([:busy, number, round], line.ask("take", [:busy, number, nil]))
      end
      line.close
    end
  end
  busy.each(&:value)
  idle.each { |line| same([], line.ask("read_all", [:idle, nil])) }
  idle.each(&:close)
end

check "more connections than workers wait their turn, and none is lost", ours: true do
  with_server("--workers", "4") do |one|
    lines = Array.new(20) { Line.new(one) }
    lines.each_with_index { |line, number| line.say("write", [:turn, number]) }
    waiting = lines.to_h { |line| [line.socket, line] }
    sleep 1
    same(4, waiting.keys.count { |socket| socket.wait_readable(0) }, "answered at first:")
    until waiting.empty?
      ready, = IO.select(waiting.keys)
      ready.each do |socket|
        line = waiting.delete(socket)
        line.hear
        line.close
      end
    end
    same((0...20).to_a, one.space.read_all([:turn, nil]).map(&:last).sort)
  end
end

check "ten thousand short connections", limit: 300 do
  with_server do |one|
    threads = Array.new(4) do |number|
      Thread.new do
        2_500.times do |round|
          line = Line.new(one)
          line.ask("write", [:short, number])
          round.even? ? line.close : line.reset
        end
      end
    end
    threads.each(&:value)
    same(10_000, one.space.read_all([:short, nil]).length)
    same(true, one.running?)
  end
end

check "running out of descriptors ends nothing", ours: true do
  with_server(rlimit_nofile: 24) do |one|
    lines = Array.new(60) { Line.new(one) }
    lines.each { |line| line.say("write", [:few, 1]) }
    sleep 1
    same(true, one.running?)
    lines.each(&:reset)
    line = Line.new(one)
    line.ask("write", [:few, 2])
    same([:few, 2], line.ask("take", [:few, 2]))
    line.close
  end
end
