# Real Ruby clients of `drbts serve`: see serve.sh, which runs this file. Takes the program, then --ruby where it is
# Ruby's own server, then a pattern of the names of checks.
require_relative "serve/tools"
require_relative "serve/methods"
require_relative "serve/callers"
require_relative "serve/bytes"
require_relative "serve/command"

check "the server that the checks shared still runs" do
  same(true, $server.nil? || $server.running?)
end

$server&.stop
puts "#{$right} ok, #{$wrong} not ok"
exit($wrong.zero?)
