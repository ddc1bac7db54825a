#!/usr/bin/env ruby
# Ruby's own server of a tuple space, with the word and the option of `drbts serve` that the scripts here give.
# KEEP is how often its keeper looks for what has expired, in seconds.
require "drb"
require "rinda/tuplespace"

abort "usage: ruby.rb serve --uri U" unless ARGV[0] == "serve" && ARGV[1] == "--uri" && ARGV.length == 3
DRb.start_service(ARGV[2], Rinda::TupleSpace.new(Float(ENV.fetch("KEEP", "60"))))
puts DRb.uri
$stdout.flush
DRb.thread.join
