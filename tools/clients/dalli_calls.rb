# dalli against a server, by its binary and its meta protocol. Usage: dalli_calls.rb PORT.
require 'dalli'
require 'logger'
Dalli.logger = Logger.new(File::NULL)
works, fails = [], []
%i[binary meta].each do |protocol|
  got = begin
    client = Dalli::Client.new("127.0.0.1:#{ARGV[0]}", protocol: protocol, socket_timeout: 2, expires_in: 60)
    client.set('da-a', '1')
    client.get('da-a')
  rescue StandardError => e
    e.class.to_s
  end
  (got == '1' ? works : fails) << protocol
end
puts "dalli works: #{works.join(' ')}", "dalli fails: #{fails.join(' ')}"
