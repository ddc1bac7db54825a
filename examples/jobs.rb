# A queue of jobs with three workers. Takes the uri of the space.
require "drb"
require "rinda/rinda"

DRb.start_service("druby://127.0.0.1:0")
# The proxy takes a tuple only once it has arrived, so none is lost with a worker that dies.
space = Rinda::TupleSpaceProxy.new(DRbObject.new_with_uri(ARGV.fetch(0)))

workers = Array.new(3) do
  Thread.new do
    loop do
      _, number, text = space.take([:job, nil, nil])
      break unless number

      space.write([:done, number, text.reverse])
    end
  end
end

texts = %w[pear apple fig cherry plum lemon]
texts.each_with_index { |text, number| space.write([:job, number, text]) }
texts.each_index { |number| p space.take([:done, number, nil]) }

workers.each { space.write([:job, nil, nil]) }
workers.each(&:join)
puts "#{space.read_all([:job, nil, nil]).length} jobs left"
