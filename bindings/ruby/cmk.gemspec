# frozen_string_literal: true

require_relative "lib/cmk/version"

Gem::Specification.new do |gem|
  gem.name = "cmk"
  gem.version = Cmk::VERSION
  gem.summary = "CommonMark 0.31.2 to HTML, to its tree, or to plain source, by the proved library libcmk"
  gem.authors = ["The authors of Wuravina"]
  gem.files = ["lib/cmk.rb", "lib/cmk/version.rb"]
  gem.required_ruby_version = ">= 3.1"
  gem.add_runtime_dependency "fiddle"
  gem.add_runtime_dependency "json"
  gem.requirements << "libcmk 0.1"
end
