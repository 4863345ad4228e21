#!/usr/bin/env python3
"""Opens a VTK file of the tool in real viewers' libraries and holds it against the mesh file it comes from.

  python3 view.py FILE.mesh FILE.vtk [PICTURE.png]

Points (bit for bit), cells, cell types and component numbers must be those of the mesh file. VTK is asked (Debian: python3-vtk9),
and meshio too where it is installed. With a third name the mesh is drawn, off screen, whole and cut open,
coloured by component; without a display run it under xvfb-run.
"""

import sys
from array import array

TETRAHEDRON = 10


def read_mesh(path):
    """Points as bits, cells and component numbers, each a flat table, from the three sections of a mesh file."""
    with open(path, "rb") as file:
        words = array("I", file.read())
    if sys.byteorder == "big":
        words.byteswap()
    sections, at = [], 0
    for width in (3, 4, 1):
        end = at + 1 + width * words[at]
        sections.append(words[at + 1 : end])
        at = end
    return sections


def bits(numbers):
    """32-bit floats as bits."""
    floats = array("f", numbers)
    return array("I", floats.tobytes())


def seen_by_vtk(path):
    import vtk

    reader = vtk.vtkUnstructuredGridReader()
    reader.SetFileName(path)
    reader.ReadAllScalarsOn()
    reader.Update()
    grid = reader.GetOutput()
    points, cells = grid.GetPoints().GetData(), grid.GetCells().GetConnectivityArray()
    numbers = grid.GetCellData().GetArray("component")
    count = grid.GetNumberOfCells()
    types = {grid.GetCellType(n) for n in range(count)}
    tables = [
        bits(points.GetValue(n) for n in range(points.GetNumberOfValues())),
        array("I", (cells.GetValue(n) for n in range(cells.GetNumberOfValues()))),
        array("I", (numbers.GetValue(n) for n in range(count))),
    ]
    return grid, tables, types


def seen_by_meshio(path):
    import meshio

    mesh = meshio.read(path, file_format="vtk")
    block = mesh.cells_dict["tetra"]
    numbers = mesh.cell_data_dict["component"]["tetra"]
    tables = [
        array("I", mesh.points.astype("<f4").tobytes()),
        array("I", block.astype("<u4").tobytes()),
        array("I", numbers.astype("<u4").tobytes()),
    ]
    return tables, {TETRAHEDRON} if list(mesh.cells_dict) == ["tetra"] else set(mesh.cells_dict)


def compare(viewer, expected, tables, types):
    """Says what a viewer saw; whether it is the mesh."""
    same = [one == other for one, other in zip(expected, tables)]
    same.append(types <= {TETRAHEDRON})
    names = ("points", "cells", "component numbers", "cell types")
    for name, right in zip(names, same):
        print(f"{viewer}: {name} {'as in the mesh file' if right else 'DIFFER'}")
    return all(same)


def half(grid):
    """The cells that lie wholly behind the plane y = 0."""
    import vtk

    plane = vtk.vtkPlane()
    plane.SetNormal(0, -1, 0)
    cut = vtk.vtkExtractGeometry()
    cut.SetInputData(grid)
    cut.SetImplicitFunction(plane)
    cut.Update()
    return cut.GetOutput()


def actor(grid, pieces):
    import vtk

    colours = vtk.vtkLookupTable()
    colours.SetTableRange(0, max(pieces, 2))
    colours.SetHueRange(0.58, 0.0)
    colours.SetSaturationRange(0.45, 0.6)
    colours.SetNumberOfTableValues(max(pieces, 2))
    colours.Build()
    mapper = vtk.vtkDataSetMapper()
    mapper.SetInputData(grid)
    mapper.SetScalarModeToUseCellData()
    mapper.SelectColorArray("component")
    mapper.SetLookupTable(colours)
    mapper.UseLookupTableScalarRangeOn()
    drawn = vtk.vtkActor()
    drawn.SetMapper(mapper)
    drawn.GetProperty().EdgeVisibilityOn()
    drawn.GetProperty().SetEdgeColor(0.28, 0.36, 0.48)
    drawn.GetProperty().SetLineWidth(0.7)
    return drawn


def draw(grid, pieces, path):
    """Two views side by side: whole, and cut open."""
    import vtk

    window = vtk.vtkRenderWindow()
    window.SetOffScreenRendering(1)
    window.SetSize(1000, 800)
    window.SetMultiSamples(4)
    for place, shown in enumerate((grid, half(grid))):
        view = vtk.vtkRenderer()
        view.SetBackground(1.0, 1.0, 1.0)
        view.SetViewport(place / 2, 0.0, (place + 1) / 2, 1.0)
        view.AddActor(actor(shown, pieces))
        view.GetActiveCamera().SetPosition(0.45, -1.0, 0.3)
        view.GetActiveCamera().SetFocalPoint(0.0, 0.0, 0.0)
        view.GetActiveCamera().SetViewUp(0.0, 0.0, 1.0)
        view.ResetCamera(grid.GetBounds())
        view.GetActiveCamera().Zoom(1.15)
        window.AddRenderer(view)
    window.Render()
    shot = vtk.vtkWindowToImageFilter()
    shot.SetInput(window)
    writer = vtk.vtkPNGWriter()
    writer.SetFileName(path)
    writer.SetInputConnection(shot.GetOutputPort())
    writer.Write()
    print(f"drawn to {path}")


def main():
    if len(sys.argv) not in (3, 4):
        print(__doc__)
        return 2
    expected = read_mesh(sys.argv[1])
    grid, tables, types = seen_by_vtk(sys.argv[2])
    right = compare("VTK", expected, tables, types)
    try:
        right &= compare("meshio", expected, *seen_by_meshio(sys.argv[2]))
    except ImportError:
        print("meshio: not installed")
    if len(sys.argv) == 4:
        draw(grid, len(set(expected[2])), sys.argv[3])
    return 0 if right else 1


if __name__ == "__main__":
    sys.exit(main())
