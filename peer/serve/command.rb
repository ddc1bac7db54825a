# Checks of the words of `drbts serve`, and of what each does.

check "--sessions ends the server", ours: true do
  with_server("--sessions", "3") do |one|
    lines = Array.new(3) { Line.new(one) }
    lines.each_with_index { |line, number| line.ask("write", [:last, number]) }
    lines[0].ask("take", [:last, 0])
    same(true, one.running?)
    lines.each(&:close)
    # a write is a turn, and a take that finds its tuple two
    same([0, "turns 5 tuples 2\n", ""], one.ended)
  end
end

check "--sessions lets a waiting take have its tuple", ours: true do
  with_server("--sessions", "2") do |one|
    taker = Line.new(one)
    taker.say("take", [:meet, nil])
    sleep 0.2
    writer = Line.new(one)
    writer.ask("write", [:meet, 1])
    same([:meet, 1], taker.hear)
    [taker, writer].each(&:close)
    same(0, one.ended.first)
  end
end

check "--shut-after shuts the space", ours: true do
  with_server("--shut-after", "700") do |one|
    one.space.write([:before, 1])
    notifier = one.space.notify("write", [:never, nil])
    raises(Rinda::RequestCanceledError, "request canceled") { one.space.take([:never, nil]) }
    raises(RuntimeError, "space is shut") { one.space.write([:late, 1]) }
    raises(RuntimeError, "space is shut") { one.space.take([:before, nil]) }
    same(["close"], notifier.pop)
    same([[:before, 1]], one.space.read_all([:before, nil]))
  end
end

check "--max-turns ends a session, and the server stays", ours: true do
  with_server("--max-turns", "2") do |one|
    one.space.write([:full, 1])
    one.space.write([:full, 2])
    raises(DRb::DRbConnError) { one.space.write([:full, 3]) }
    same(true, one.running?)
  end
end

check "--load-limit", ours: true do
  with_server("--load-limit", "1000") do |one|
    one.space.write([:small, "x" * 900])
    raises(DRb::DRbConnError) { one.space.write([:small, "x" * 1000]) }
  end
end

check "--workers 1 serves one after the other", ours: true do
  with_server("--workers", "1") do |one|
    threads = Array.new(5) do |number|
      Thread.new do
        line = Line.new(one)
        line.ask("write", [:one, number])
        line.close
      end
    end
    threads.each(&:value)
    line = Line.new(one)
    same(5, line.ask("read_all", [:one, nil]).length)
    line.close
  end
end

# What the program prints with these words, its errors, and its status.
def command(*words)
  errors = Tempfile.new("errors")
  output, theirs = IO.pipe
  pid = Process.spawn(PROGRAM, *words, in: File::NULL, out: theirs, err: errors.path)
  theirs.close
  text = output.read
  [text, File.read(errors.path), Process.wait2(pid).last.exitstatus]
ensure
  begin
    Process.kill(:KILL, pid)
    Process.wait(pid)
  rescue Errno::ESRCH, Errno::ECHILD
    # it has ended
  end
end

# A file with these lines.
def list(*lines)
  Tempfile.create("list") do |file|
    file.puts(lines)
    file.flush
    yield file.path
  end
end

# Whether a connection from that address is served.
def served?(one, address)
  line = Line.new(one, from: address)
  line.ask("read_all", [:any, nil]) == []
rescue DRb::DRbConnError, Errno::ECONNRESET, Errno::EPIPE
  false
ensure
  line&.close
end

check "--acl lets one of two peers in", ours: true do
  list("order deny,allow", "deny all", "allow 127.0.0.2") do |file|
    with_server("--acl", file, "--sessions", "2") do |one|
      same([false, true, false, true],
           %w[127.0.0.1 127.0.0.2 127.0.0.1 127.0.0.2].map { |address| served?(one, address) })
      status, output, errors = one.ended
      same([0, "turns 2 tuples 0\n", "acl: 2 refused by rule 0, deny all\n"], [status, output, errors])
    end
  end
end

check "a bad --acl is refused before anything is bound", ours: true do
  list("deny all", "allow localhost") do |file|
    output, errors, status = command("serve", "--uri", "druby://127.0.0.1:0", "--acl", file)
    same([1, ""], [status, output])
    same(true, errors.include?("acl: line 2"), errors)
  end
end

check "an --acl that isn't there", ours: true do
  output, errors, status = command("serve", "--uri", "druby://127.0.0.1:0", "--acl", "/nowhere/list")
  same([4, "", 1], [status, output, errors.lines.length])
end

[
  %w[],
  %w[nonsense],
  %w[serve more],
  %w[serve --nonsense],
  %w[serve --uri],
  %w[serve --uri http://127.0.0.1:0],
  %w[serve --uri druby://127.0.0.1:65536],
  %w[serve --workers 0],
  %w[serve --workers 257],
  %w[serve --workers many],
  %w[serve --sessions 0],
  %w[serve --sessions 1000000001],
  %w[serve --max-turns 0],
  %w[serve --load-limit 63],
  %w[serve --shut-after 0],
  %w[serve --shut-after 86400001],
  %w[serve --workers 2 --workers 3]
].each do |words|
  check "wrong words: #{["drbts", *words].join(" ")}", ours: true, limit: 10 do
    output, errors, status = command(*words)
    same([1, ""], [status, output])
    same(true, errors.match?(/usage|--help/i), errors.lines.first.to_s)
  end
end

check "help", ours: true do
  output, _, status = command("serve", "--help")
  same(0, status)
  %w[--uri --workers --sessions --max-turns --load-limit --shut-after --acl].each do |option|
    same(true, output.include?(option), option)
  end
end

check "a port that is taken", ours: true do
  output, errors, status = command("serve", "--uri", server.uri)
  same([8, "", 1], [status, output, errors.lines.length])
end
