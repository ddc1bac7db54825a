# Compares a program's written dumps with Ruby's own: see ruby.sh, which runs this file.
# Takes the program, which shows dumps of standard input, and the number of nested values.
require 'drb'
require 'time'

Point = Struct.new(:x, :y)

# An object with fields, equal where its fields are.
class Thing
  attr_reader :name, :parts

  def initialize(name, parts)
    @name = name
    @parts = parts
  end

  def ==(other) = other.instance_of?(Thing) && [name, parts] == [other.name, other.parts]
  alias eql? ==
  def hash = name.hash
end

# A value that its class dumps as bytes.
class Bytes < Struct.new(:text)
  def _dump(_level) = text
  def self._load(text) = new(text)
end

# A value that its class dumps as another value.
class Inner < Struct.new(:value)
  def marshal_dump = value
  def marshal_load(value)
    self.value = value
  end
end

URI_OF_SERVER = 'druby://127.0.0.1:8787'

def reference(id) = DRb::DRbObject.new_with(URI_OF_SERVER, id)

# Values of every form, and the edges of each.
def forms
  edges = [0, 1, 122, 123, 255, 256, 65_535, 65_536, 2**24 - 1, 2**24, 2**30 - 1, 2**30, 2**31, 2**32 - 1, 2**62, 2**64,
           2**112 - 1, 2**126, 2**127 - 1]
  texts = ['', 'a', 'é', "\xff".b, "\xff", 'take'.encode('US-ASCII'), 'x' * 122, 'x' * 123, 'x' * 256, 'x' * 65_536]
  names = [:a, :é, :"", :"a b", ('n' * 130).to_sym]
  [
    nil, true, false,
    *edges, *edges.map { |number| -number }, *edges.map { |number| -number - 1 }, edges + edges,
    *names, names + names, [:é, 'é', :é, 'a'], ['a', :E, 'a'],
    *texts, texts + texts.map(&:dup),
    [], [[]], [nil] * 123, Array.new(300) { |number| [:job, number, "text #{number}"] },
    {}, { a: 1, 'b' => [2], nil => 3 }, { 1 => { 2 => {} } }, Hash.new(7).merge(a: 1), Hash.new([nil, 'd']),
    Integer, Comparable, DRb::DRbObject, [Integer, Comparable, Integer],
    Thing.new('n', [1, Thing.new(:é, nil)]), [Thing.new('n', 1), Thing.new('m', 2)],
    1..5, 1...5, (1..), (..1), 'a'..'z', [1..2, 3..4],
    Point.new(1, 'two'), [Point.new(1, nil), Point.new(Point.new(:x, :y), 3)],
    Bytes.new("\x00\xff".b), Bytes.new('é'), [Bytes.new('é'), Bytes.new('a'), Bytes.new('b'.b)],
    Time.at(0, 123_456_789, :nsec), Time.at(1_700_000_000).utc, Time.at(1_700_000_000, in: '+05:30'),
    Inner.new(1), Inner.new([:a, [Inner.new('b')]]), Complex(2, -3), Rational(1, 3),
    reference(nil), reference(0), reference(2**40), reference('a'), reference('é'), [reference(1), reference(1), 'x'],
    [:name, :Printer, reference(3), 'second floor']
  ]
end

# A value that is nested at most so deep.
def nested(random, depth)
  flat = [nil, true, false, random.rand(-200..200), random.rand(-2**127...2**127), %i[a b é E].sample(random: random),
          random.bytes(random.rand(4)), 'é' * random.rand(90), Integer, reference(random.rand(9))]
  return flat.sample(random: random) if depth.zero?

  part = -> { nested(random, depth - 1) }
  case random.rand(8)
  when 0, 1 then Array.new(random.rand(4)) { part.call }
  when 2 then Array.new(random.rand(4)) { [part.call, part.call] }.to_h
  when 3 then Thing.new(part.call, part.call)
  when 4 then Point.new(part.call, part.call)
  when 5 then Inner.new([part.call])
  when 6 then Bytes.new('é' * random.rand(3))
  else flat.sample(random: random)
  end
end

# What the program shows of each dump.
def shown(program, dumps)
  IO.popen([program], 'r+b') do |pipe|
    writer = Thread.new do
      dumps.each { |dump| pipe.puts(dump.unpack1('H*')) }
      pipe.close_write
    end
    lines = pipe.each_line(chomp: true).to_a
    writer.join
    lines
  end
end

# The bytes that a shown line has; nil where the dump was not read.
def written(line) = line&.start_with?('value ') ? [line.delete_prefix('value ')].pack('H*') : nil

program, count = ARGV
random = Random.new(4_8)
values = forms + Array.new(Integer(count)) { nested(random, 5) }
dumps = values.map { |value| Marshal.dump(value) }
ours = shown(program, dumps).map { |line| written(line) }
loaded = ours.map { |bytes| bytes && Marshal.load(bytes) }
again = loaded.map { |value| Marshal.dump(value) }
ours_again = shown(program, again).map { |line| written(line) }

wrong = values.each_index.reject { |at| ours[at] && values[at] == loaded[at] && ours[at] == ours_again[at] }
wrong.each { |at| puts "#{dumps[at].unpack1('H*')}: written #{ours[at]&.unpack1('H*') || 'not at all'}" }
same = values.each_index.count { |at| again[at] == ours[at] }
puts "#{values.length} values, #{same} dumped again by Ruby as they were written, #{wrong.length} differences"
exit(wrong.empty?)
