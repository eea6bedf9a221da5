# frozen_string_literal: true

# Answers the cases of .ci/bindings.py by bindings/ruby. A text is given in BINARY and in UTF-8: the two have to give the same.

require "cmk"
require "json"

# Returns the HTML on which four threads agree.
def threads(text, **options)
  made = Array.new(4) { Thread.new { Array.new(200) { Cmk.html(text, **options) } } }.flat_map(&:value)
  made.uniq.size == 1 ? made.first : "they differ"
end

def output(call, text, options)
  case call
  when "threads" then threads(text, **options)
  when "parse" then JSON.generate(Cmk.parse(text, **options), max_nesting: false)
  else Cmk.public_send(call, text, **options)
  end
end

def answer(call, text, options)
  { output: output(call, text, options) }
rescue Cmk::Error => error
  { number: error.number, place: error.place, line: error.message }
end

$stdin.each_line do |line|
  call, text, options = JSON.parse(line, symbolize_names: true).values_at(:call, :text, :options)
  bytes = text.unpack1("m")
  answers = [bytes, bytes.dup.force_encoding(Encoding::UTF_8)].map { |it| answer(call, it, options) }
  abort "#{answers}" if answers.uniq.size > 1
  puts JSON.generate(answers.first)
end
