# Ruby's Dalli: it speaks the binary protocol, which no server of craq does.
# usage: ruby dalli.rb HOST:PORT
require 'dalli'

Dalli.logger.level = Logger::FATAL
client = Dalli::Client.new(ARGV[0], socket_timeout: 1)
begin
  puts "set: #{client.set('a', '1')}"
rescue Dalli::DalliError => error
  puts "set: #{error.message}"
end
