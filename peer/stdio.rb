# Sends requests of every method to a session of `drbts stdio`, as Ruby's own drb writes them, and compares what comes
# back, as Ruby's own drb reads it. Takes the program. Ports, blocks and renewers are objects of this process.
require "drb"
require "rinda/rinda"
require "rinda/tuplespace"

program = ARGV.fetch(0)
DRb.start_service("druby://127.0.0.1:0")

class Session
  def initialize(program, *words)
    @pipe = IO.popen([program, "stdio", *words], "r+b")
    @message = DRb::DRbMessage.new(DRb::DRbServer.make_config)
    @front = DRb::DRbObject.new_with("druby://127.0.0.1:8787", nil)
  end

  # What the space, or the object of that reference, answers: its result, or the exception.
  def ask(name, *args, on: @front, &block)
    @message.send_request(@pipe, on, name, args, block)
    @pipe.flush
    @message.recv_reply(@pipe).last
  end

  # The status with which the program ends once nothing more comes.
  def close
    @pipe.close_write
    rest = @pipe.read
    @pipe.close
    [$?.exitstatus, rest.bytesize]
  end
end

class Port
  include DRb::DRbUndumped
  attr_reader :got

  def push(value) = (@got = value; nil)
end

class Renewer
  include DRb::DRbUndumped
  attr_reader :asked

  def renew = (@asked = true; 180)
end

$wrong = 0
$right = 0

def same(what, wanted, got)
  if wanted == got
    $right += 1
  else
    $wrong += 1
    puts "#{what}: wanted #{wanted.inspect}, got #{got.inspect}"
  end
end

def id(object) = object.is_a?(DRb::DRbObject) ? object.__drbref : object

session = Session.new(program)
entry = session.ask(:write, [:a, 1])
same("the first reference", [1, "druby://127.0.0.1:8787"], [id(entry), entry.__drburi])
same("read", [:a, 1], session.ask(:read, [:a, nil]))
same("read_all", [[:a, 1]], session.ask(:read_all, [:a, Integer]))
same("alive?", true, session.ask(:alive?, on: entry))
same("expired?", false, session.ask(:expired?, on: entry))
same("canceled?", false, session.ask(:canceled?, on: entry))
same("value", [:a, 1], session.ask(:value, on: entry))
same("renew", nil, session.ask(:renew, 60, on: entry))
same("take", [:a, 1], session.ask(:take, [:a, nil]))
same("a taken tuple is not alive", false, session.ask(:alive?, on: entry))
values = ["text", "bytes\xff".b, :sym, 2**40, -3, nil, true, false, [1, [2]], { "k" => :v }, 1..5]
session.ask(:write, [:all, *values])
same("values of every form", [:all, *values], session.ask(:take, [:all, *values.map { nil }]))
same("nobody has it any more", [], session.ask(:read_all, [:all, *values.map { nil }]))
notifier = session.ask(:notify, "write", [:b, nil])
session.ask(:write, [:b, 2])
same("pop", ["write", [:b, 2]], session.ask(:pop, on: notifier))
same("cancel of a notifier", nil, session.ask(:cancel, on: notifier))
same("pop of a closed one", ["close"], session.ask(:pop, on: notifier))
port = Port.new
same("move", nil, session.ask(:move, port, [:b, nil]))
same("what the port got", [:b, 2], port.got)
renewer = Renewer.new
kept = session.ask(:write, [:c, 3], renewer)
same("a renewer is asked", true, renewer.asked)
same("its tuple is there", [[:c, 3]], session.ask(:read_all, [:c, nil]))
same("cancel of a tuple", nil, session.ask(:cancel, on: kept))
same("a canceled tuple", true, session.ask(:canceled?, on: kept))
all = session.ask(:notify, nil, [:d, nil])
session.ask(:write, [:d, 4])
session.ask(:take, [:d, nil])
session.ask(:cancel, on: all)
heard = []
same("each", nil, session.ask(:each, on: all) { |event, tuple| heard << [event, tuple] })
same("what the block got", [["write", [:d, 4]], ["take", [:d, 4]], ["close", nil]], heard)
asked = nil
session.ask(:write, [:e, 5])
same("take with a block", [:e, 5], session.ask(:take, [:e, nil]) { |request| asked = id(request) })
same("the block got the request", true, asked.is_a?(Integer))
same("a lifetime that is over", 15, id(session.ask(:write, [:f, 6], 0)))
same("no such tuple is left", [], session.ask(:read_all, [:f, nil]))
same("its end", [0, 0], session.close)

{
  "a take that would wait" => [ThreadError, "would wait", [:take, [:a, nil]]],
  "a take without time" => [Rinda::RequestExpiredError, "request expired", [:take, [:a, nil], 0]],
  "too few arguments" => [ArgumentError, "wrong number of arguments (given 0, expected 1..2)", [:write]],
  "no array" => [TypeError, "tuple must be an array or a hash", [:write, 1]],
  "an insecure method" => [SecurityError, "insecure method __send__", [:__send__, "exit"]],
  "an unknown method" => [NoMethodError, "no method exit", [:exit]],
  "a number with a fraction" => [ArgumentError, "marshal refusal 3 at 6", [:write, [[1.5]]]],
}.each do |what, (wanted, text, request)|
  session = Session.new(program)
  got = session.ask(*request)
  same(what, [wanted, text], [got.class, got.message])
  status, rest = session.close
  same("#{what}: its end", [wanted == ArgumentError && text.start_with?("marshal") ? 3 : 2, 0], [status, rest])
end

session = Session.new(program, "--max-turns", "2", "--uri", "druby://example.org:1234")
same("the uri that was named", "druby://example.org:1234", session.ask(:write, [:a, 1]).__drburi)
session.ask(:write, [:a, 2])
begin
  session.ask(:write, [:a, 3])
rescue DRb::DRbConnError
  # nothing came: the history is full
end
same("a full history", [6, 0], session.close)

puts "#{$right} right, #{$wrong} wrong"
exit($wrong == 0)
