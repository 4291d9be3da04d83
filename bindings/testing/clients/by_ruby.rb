# What each client does for the auditing proxy's test, by Ruby's mysql2.

require "mysql2"
require "bigdecimal"
require "date"

HOST, PORT, USER, DATABASE, FILE = ARGV

def connect(user, password = nil)
  Mysql2::Client.new(host: HOST, port: PORT.to_i, username: user, password: password,
                     database: DATABASE, encoding: "utf8mb4", local_infile: true)
end

def refused(code)
  yield
rescue Mysql2::Error => error
  raise error unless code.zero? || error.error_number == code
else
  raise "it isn't refused: #{code}"
end

connection = connect(USER)
connection.query("INSERT INTO audited (id, s) VALUES (1, 'it''s')")
rows = connection.query("SELECT id, s FROM audited WHERE id = 1").to_a
raise "one row" unless rows == [{ "id" => 1, "s" => "it's" }]
refused(1146) { connection.query("SELECT * FROM audited_not_there") }

insert = connection.prepare("INSERT INTO audited VALUES (?, ?, ?, ?, ?, ?, ?, ?, ?, ?)")
insert.execute(2, -7, 2**63, 1.5, "maté \u2618", "\xff\0'".b, nil, Date.new(2024, 2, 29),
               Time.utc(2024, 2, 29, 12, 30, 1, 5), "-30:01:00")
insert.close
select = connection.prepare("SELECT s FROM audited WHERE id = ?")
[2, 9].each do |id|
  raise "the row #{id}" unless select.execute(id).to_a.size == (id == 2 ? 1 : 0)
end
select.close

big = connection.query("SELECT REPEAT('x', 17000000) AS audited").first["audited"]
raise "a big row" unless big == "x" * 17_000_000

connection.query("LOAD DATA LOCAL INFILE '#{FILE}' INTO TABLE audited (s)")
refused(0) { connection.query("KILL CONNECTION_ID() /* audited */") }
refused(1045) { connect("audited_nobody", "wrong") }
connection = connect(USER)
connection.ping
connection.close
puts "done"
