# What the checks beside are made with: servers, clients, and `check`.
require "drb"
require "rinda/rinda"
require "socket"
require "stringio"
require "tempfile"
require "timeout"

PROGRAM = File.expand_path(ARGV.shift)
OURS = ARGV.first != "--ruby"
ARGV.shift unless OURS
PATTERN = Regexp.new(ARGV.shift || "")

$stdout.sync = true
DRb.start_service("druby://127.0.0.1:0")

# A server of its own, at a port that the system gives.
class Server
  attr_reader :uri, :pid

  def initialize(*words, uri: "druby://127.0.0.1:0", **limits)
    @output, theirs = IO.pipe
    @errors = Tempfile.new("errors")
    @pid = Process.spawn(PROGRAM, "serve", "--uri", uri, *words,
                         in: File::NULL, out: theirs, err: @errors.path, **limits)
    theirs.close
    raise "no first line within 20 s" unless @output.wait_readable(20)

    @uri = @output.gets&.chomp or raise "it ended: #{ended.inspect}"
  end

  def port = Integer(uri[/\d+\z/])
  def space = DRbObject.new_with_uri(uri)
  def errors = File.read(@errors.path)

  def running?
    @status ||= Process.wait2(pid, Process::WNOHANG)&.last&.exitstatus
    @status.nil?
  end

  # Its status, what it printed behind the uri, and its errors, once it has ended by itself.
  def ended
    @status ||= Process.wait2(pid).last.exitstatus
    [@status, @output.read, errors]
  end

  def stop
    return if @status

    Process.kill(:KILL, pid)
    Process.wait(pid)
  rescue Errno::ESRCH, Errno::ECHILD
    # it has ended
  end
end

# One connection, by the bytes that Ruby's own drb sends and reads.
class Line
  FRONT = DRb::DRbObject.new_with("druby://127.0.0.1:1", nil)
  attr_reader :socket

  # The bytes of a request.
  def self.bytes(name, *args, on: FRONT)
    text = StringIO.new("".b)
    DRb::DRbMessage.new(DRb::DRbServer.make_config).send_request(text, on, name.to_sym, args, nil)
    text.string
  end

  def initialize(server, from: nil)
    @socket = from ? TCPSocket.new("127.0.0.1", server.port, from, 0) : TCPSocket.new("127.0.0.1", server.port)
    @socket.setsockopt(Socket::IPPROTO_TCP, Socket::TCP_NODELAY, 1)
    @message = DRb::DRbMessage.new(DRb::DRbServer.make_config)
  end

  def say(name, *args) = @socket.write(Line.bytes(name, *args))
  def hear = @message.recv_reply(@socket).last

  def ask(name, *args)
    say(name, *args)
    hear
  end

  def close = @socket.close

  # Ends as the connection of a program that died with unread bytes does.
  def reset
    @socket.setsockopt(Socket::SOL_SOCKET, Socket::SO_LINGER, [1, 0].pack("ii"))
    @socket.close
  end
end

# Another Ruby process, which can be killed. It has the space as SPACE, and says when it is ready by a line.
class Other
  HEAD = <<~RUBY
    require "drb"
    require "rinda/rinda"
    DRb.start_service("druby://127.0.0.1:0")
    SPACE = DRbObject.new_with_uri(ARGV.fetch(0))
    PROXY = Rinda::TupleSpaceProxy.new(SPACE)
    $stdout.sync = true
  RUBY

  def initialize(server, program)
    @pipe = IO.popen(["ruby", "-e", HEAD + program, server.uri], err: File::NULL)
    @pipe.gets or raise "the other process ended"
    sleep 0.3
  end

  def kill
    Process.kill(:KILL, @pipe.pid)
    @pipe.close
  end
end

Differs = Class.new(StandardError)

def same(wanted, got, what = "")
  raise Differs, "#{what}#{" " unless what.empty?}wanted #{wanted.inspect}, got #{got.inspect}" unless wanted == got
end

def raises(wanted, text = nil)
  got = yield
rescue Differs, Timeout::Error
  raise
rescue Exception => e
  raise Differs, "wanted #{wanted}, got #{e.class}: #{e.message}" unless e.instance_of?(wanted)

  same(text, e.message) if text && OURS
else
  raise Differs, "wanted #{wanted}, got #{got.inspect}"
end

# Tries again, for 20 seconds, until it holds.
def soon(what)
  200.times do
    return if yield

    sleep 0.1
  end
  raise Differs, "#{what}: not within 20 s"
end

def seconds
  started = Process.clock_gettime(Process::CLOCK_MONOTONIC)
  yield
  Process.clock_gettime(Process::CLOCK_MONOTONIC) - started
end

$right = 0
$wrong = 0

# A check of what the block does. Those of what is ours alone aren't made of Ruby's own server.
def check(name, ours: false, limit: 60)
  return if (ours && !OURS) || name !~ PATTERN

  Timeout.timeout(limit) { yield }
  $right += 1
  puts "ok #{name}"
rescue StandardError, SecurityError, NotImplementedError => e
  $wrong += 1
  at = e.backtrace.to_a.find { |line| line.start_with?(__dir__) && !line.match?(/(same|raises|soon)'$/) }
  why = e.message.lines.first.to_s.chomp
  why = "#{e.class}: #{why}" unless e.instance_of?(Differs)
  puts "not ok #{name}: #{why} (#{at.to_s[%r{[^/]+:\d+}]})"
end

# The server that checks share; another one where it has ended.
def server
  $server = Server.new if $server.nil? || !$server.running?
  $server
end

# A server for one check.
def with_server(*words, **options)
  one = Server.new(*words, **options)
  yield one
ensure
  one&.stop
end

def space = server.space
def proxy = Rinda::TupleSpaceProxy.new(space)
