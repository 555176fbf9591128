# JSON.parse of Ruby.
require "json"

$stdout.sync = true
$stdin.each_line do |line|
  begin
    JSON.parse(line.unpack1("m").force_encoding("UTF-8"))
    puts "taken"
  rescue JSON::ParserError
    puts "refused"
  end
end
