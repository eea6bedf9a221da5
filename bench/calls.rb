# frozen_string_literal: true

# Measures bindings/ruby next to commonmarker, for bench/calls.

require "cmk"
require "commonmarker"

def processor_time = Process.clock_gettime(Process::CLOCK_PROCESS_CPUTIME_ID)

turns, times = ARGV.first(2).map(&:to_i)
text = File.read(ARGV[2], encoding: "UTF-8")
calls = { "cmk" => -> { Cmk.html(text) }, "commonmarker" => -> { CommonMarker.render_html(text, :UNSAFE) } }
least = Hash.new(Float::INFINITY)

turns.times do
  calls.each do |name, call|
    began = processor_time
    times.times { call.call }
    least[name] = [least[name], processor_time - began].min
  end
end
least.each { |name, took| puts "#{name} #{took / times}" }
