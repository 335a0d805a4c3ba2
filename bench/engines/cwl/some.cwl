cwlVersion: v1.2
class: Workflow
doc: A scattered step that is taken for some of its elements alone.
requirements: {InlineJavascriptRequirement: {}, ScatterFeatureRequirement: {}, MultipleInputFeatureRequirement: {}}
inputs: {reads: 'File[]', flags: 'boolean[]'}
outputs:
  each: {type: 'File[]', outputSource: map/made, pickValue: all_non_null}
steps:
  map:
    run: one.cwl
    when: $(inputs.flag)
    scatter: [read, flag]
    scatterMethod: dotproduct
    in: {read: reads, flag: flags}
    out: [made, log]
  join: {run: stamp.cwl, in: {read: {source: map/made, pickValue: all_non_null}}, out: [made]}
