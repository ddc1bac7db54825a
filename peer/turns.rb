# Prints the standard input of journal_show: a text of each event and of each answer, as Ruby's own Marshal spells it.
require 'drb'

def tuple = [:a, 1]
def named = { 'k' => 1 }
def renewer = DRb::DRbObject.new_with('druby://h:1', 7)

def packet(value)
  body = Marshal.dump(value)
  [body.bytesize].pack('N') + body
end

def text(head, values = [])
  ([head] + values).map { |value| packet(value) }.join.unpack1('H*')
end

EVENTS = [
  ['write', [nil, false], [tuple]],
  ['write', [60, true], [named, renewer]],
  ['write', [true, false], [[]]],
  ['write', [-1, false], [tuple]],
  ['write', [2**100, false], [tuple]],
  ['reserve', [:read, nil, false], [[nil, nil]]],
  ['reserve', [:take, 5, true], [[:a, Integer], renewer]],
  ['reserve', [:move, true, false], [{ 'k' => nil }]],
  ['submit', [2], []],
  ['collect', [2], []],
  ['settle', [2, true], []],
  ['settle', [2, false], []],
  ['withdraw', [2], []],
  ['cancel', [2], []],
  ['renew', [2, nil, false], []],
  ['renew', [2, 9, true], [renewer]],
  ['look', [2], []],
  ['value', [2], []],
  ['read_all', [], [[nil]]],
  ['notify', [nil, false], ['write', [nil, nil]]],
  ['notify', [3, true], [nil, { 'k' => Integer }, renewer]],
  ['pop', [2], []],
  ['next_ask', [], []],
  ['asked', [2, nil], []],
  ['asked', [2, true], []],
  ['asked', [2, 30], []],
  ['tick', [], []],
  ['shut', [], []],
  ['look', [2**64 - 1], []],
].freeze

ANSWERS = [
  ['entry', [1], []],
  ['reserved', [1], []],
  ['answer', [], [tuple]],
  ['answer', [], [nil]],
  ['parked', [1], []],
  ['granted', [1], [named]],
  ['all', [0], []],
  ['all', [2], [tuple, named]],
  ['notifier', [1], []],
  ['event', [:write], [tuple]],
  ['event', [:take], [named]],
  ['event', [:delete], [tuple]],
  ['closed', [], []],
  ['expired', [], []],
  ['canceled', [], []],
  ['would_wait', [], []],
  ['not_yet', [], []],
  ['state', [true, false, false], []],
  ['ask', [1], [renewer]],
  ['plain', [], []],
  ['recycled', [], []],
  ['unknown', [], []],
  ['wrong_kind', [], []],
  ['shut', [], []],
].freeze

def show(event, answer, picks = [])
  head = [0, 1000, event[0].to_sym, *event[1], answer[0].to_sym, *answer[1], *picks]
  "turn #{text(head, event[2] + answer[2])}"
end

def refused(head, values = []) = "turn #{text(head, values)}"

plain = ['plain', [], []]
tick = ['tick', [], []]
first = text([0, 1000, :write, nil, false, :entry, 1], [tuple])

puts '# the first turn, and the same with bytes behind it'
puts "turn #{first}"
puts "turn #{first}00"
puts '# each event'
EVENTS.each { |event| puts show(event, plain) }
puts '# each answer'
ANSWERS.each { |answer| puts show(tick, answer) }
puts '# picks'
puts show(['submit', [2], []], ['answer', [], [tuple]], [2, 1])
puts show(tick, plain, [2, 1, 3, 1])
puts '# no turns: no bytes, half a pick, another name, an id of 2^64, an id below 0, a false for a life'
puts 'turn'
puts show(tick, plain, [2])
puts refused([0, 1000, :tock, :plain])
puts refused([0, 1000, :look, 2**64, :plain])
puts refused([0, 1000, :look, -1, :plain])
puts refused([0, 1000, :write, false, false, :entry, 1], [tuple])
puts '# no turns: a tuple that is no list, a key that is no text, a default, a value too few, and an event of no tuple'
puts refused([0, 1000, :write, nil, false, :entry, 1], [1])
puts refused([0, 1000, :write, nil, false, :entry, 1], [{ k: 1 }])
puts refused([0, 1000, :write, nil, false, :entry, 1], [Hash.new(0).merge({ 'k' => 1 })])
puts refused([0, 1000, :write, nil, false, :entry, 1])
puts refused([0, 1000, :pop, 2, :event, :write], [1])
puts '# no turns: an integer spelled longer than it has to be, a size that is too large, and a size that is too small'
puts "turn #{first.sub('6906', '690101')}"
puts "turn #{first.sub('0000001c', '0000001d')}"
puts "turn #{first.sub('0000001c', '0000001b')}"
puts '# each front of the first text'
puts "cut #{first}"
puts '# each byte of the first text changed to each other one, which makes 122 other callers, 509 readings, 1 life, 122 ids and'
puts '# 375 tuples'
puts "change #{first}"
